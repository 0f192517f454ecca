#!/usr/bin/env python3
"""Prints the note of a change: which promises, definitions and proofs moved, and which stayed.

  tools/change_note.py BEFORE AFTER   prints the note, as Markdown, on the change from one revision to another

AFTER may be `worktree`: the files as they lie. The lines in round brackets are to be replaced by hand.

Promises are the clauses of contracts, the signatures of public functions, types with their facts and what public ones derive,
public constants, the ghosts of traits and of their implementations, and the names that a crate exports; public is what its
`pub use` lines show. Definitions are the items of a crate's specs/, proofs those of its proofs/. Comments and white space are
no part of their words. A name counts as cited wherever it stands in the words, even where a variable has it. What the library
defines, and the types in a signature or a field, are not followed.
"""
import io
import itertools
import pathlib
import re
import subprocess
import sys
import tarfile
from collections import Counter, defaultdict, namedtuple

ROOT = pathlib.Path(__file__).resolve().parent.parent
PLACE = re.compile(r"crates/(\w+)/(src|specs|proofs)/(.+)\.(?:rt|antt)")
USE = re.compile(r"use Rattle\.(\w+)\.specs\.([\w.]+?)(?:\.\{([^}]*)\}| as (\w+));?$")

# in code: what a bracket may stand in or be; comments; where an item begins; and what stands in front of a brace
QUOTED = r"\"(?:\\.|[^\"\\])*\"|(?<![\w'])b?'(?:\\.[^']*|[^'\\])'"
TOKEN = re.compile(QUOTED + r"|[()\[\]{};]", re.DOTALL)
REMARK = re.compile(QUOTED + r"|//[^\n]*", re.DOTALL)
START = re.compile(r"\s*((?:#!?\[[^\]]*\]\s*)*)((?:pub(?:\([^)]*\))? )?)(ghost use|ghost|use|mod|const|static|type|fn|struct|enum|impl|trait|macro_rules!)(?: (\w+)|(?=[ <]))")
BLOCKS = "fn", "mod", "struct", "enum", "impl", "trait", "macro_rules!"
CLAUSE = re.compile(r"\b(ensures|requires)\b *(\w*)\s*$")
FACT = re.compile(r"(?:pub )?ghost (\w+): \{((?:[^{}]|\{[^{}]*\})*)\},?")
IMPL = re.compile(r"impl(?:<(?:[^<>]|<[^<>]*>)*>)? (?:(.*) for )?(\w+)")

# in definitions and proofs: comments, and the heads of a module and of an item
COMMENT = re.compile(r"(?:^|\s)--(?:\s.*)?$", re.MULTILINE)
MODULE = re.compile(r"^( *)(module .*?) where$", re.MULTILINE | re.DOTALL)
HEAD = re.compile(r"(?:abbrev |unfoldable )?(?:pub )?(?:(?:record|data|ruleset) (\S+)|(\S+) :(?: |$))")

# in words: a name that is not a field's, and a field's
NAME = re.compile(r"(?<![^\s(){};,@«»])[^\s(){}.;,@«»]+")
FIELD = re.compile(r"([{;])\s*\S+ [=:](?= )|\bpub \S+ :")

# The key of an item is (section, crate, owner, part): the clause `made` of `Mission::slope`, the definition `step` of the file `Step`.
# Its frame is what stands around it: modules, and how strongly a sign binds. Its scope says what names stand for.
Item = namedtuple("Item", "lines frame scope public", defaults=[(), {}, True])
# A piece of code: a function, a type, a block, or a line.
Piece = namedtuple("Piece", "marks keyword name public whole head body clauses")


def files(revision):
    """The texts of code, definitions and proofs, by their paths."""
    if revision == "worktree":
        texts = {p.relative_to(ROOT).as_posix(): p.read_bytes() for kind in ("src", "specs", "proofs") for p in ROOT.glob(f"crates/*/{kind}/**/*.*t")}
    else:
        archive = subprocess.run(["git", "archive", revision, "crates"], cwd=ROOT, stdout=subprocess.PIPE, check=False)
        if archive.returncode:
            sys.exit(f"no files of {revision}")
        with tarfile.open(fileobj=io.BytesIO(archive.stdout)) as tar:
            texts = {m.name: tar.extractfile(m).read() for m in tar if m.isfile()}
    return {path: texts[path].decode() for path in sorted(texts) if PLACE.fullmatch(path)}


def tidy(text):
    return " ".join(text.split())


def joined(text):
    """A text in one line, however its brackets are broken into lines."""
    return re.sub(r"(?<=[({]) | (?=[)}])|,(?= ?[)}])", "", tidy(text))


def full_lines(text):
    return [line.rstrip() for line in text.split("\n") if line.strip()]


def imports(statement):
    """The names that a `use` brings in, and the keys that they stand for, in which None stands for anything."""
    use = USE.search(tidy(statement))
    path = use[2].split(".") if use else []
    for name in (use[3] or f"* as {use[4]}").split(", ") if use else []:
        name, _, other = name.partition(" as ")
        if path[0] == "declared":
            owner = [p for p in path if not p.startswith("The")][-1]
            yield other or name, ("Promises", use[1], owner if owner[0].isupper() else name, None)
        else:
            yield other or name, ("Definitions", use[1], "/".join(path), None if name == "*" else name)


# Definitions and proofs.

def constructors(item):
    is_data = re.match(r"(?:pub )?data ", item.lines[0])
    return [line.split()[0] for line in item.lines[1:] if re.match(r" +\S+ :", line)] if is_data else []


def antt_items(section, crate, owner, text):
    """The definitions or proofs of a file, by their keys."""
    scope, items, modules, signs, lines = {}, {}, [], [], []
    for line in full_lines(MODULE.sub(lambda m: f"{m[1]}{tidy(m[2])} where", COMMENT.sub("", text))):
        indent = len(line) - len(line.lstrip())
        modules = [m for m in modules if m[0] <= indent]
        line = line[modules[-1][0] if modules else 0:]
        head = HEAD.match(line)
        if line.startswith("use "):
            scope.update(imports(line))
        elif line.startswith("infix"):
            signs.append(line)
        elif line.startswith("module "):
            modules.append((indent + 2, line))
        elif head:
            key, lines = (section, crate, owner, head[1] or head[2]), [line]
            assert key not in items, f"{key} stands twice"
            items[key] = Item(lines, [*(s for s in signs if key[3] in s.split()), *(m[1] for m in modules)], scope)
        else:
            lines.append(line)
    scope.update((name, key) for key, item in items.items() for name in [key[3], *constructors(item)])
    return items


# Code.

def first(text, at, stops):
    """Where the first of the stops stands that is in no bracket."""
    depth = 0
    for token in TOKEN.finditer(text, at):
        if depth == 0 and token[0] in stops:
            return token.start()
        depth += (token[0] in "([{") - (token[0] in ")]}")
    raise ValueError(f"no {stops} behind {text[at:at + 60]}")


def pieces(text):
    """The pieces of a file or a block."""
    at = 0
    while start := START.match(text, at):
        begin = at = start.start(2)
        clauses = []
        head = stop = first(text, at, "{;" if start[3] in BLOCKS else ";")
        while clause := CLAUSE.search(text, at, stop):
            head, at = min(head, clause.start()), first(text, stop + 1, "}") + 1
            part = clause[2] or "ensures" if clause[1] == "ensures" else f"requires {clause[2]}".strip()
            clauses.append((part, tidy(text[stop + 1:at - 1])))
            stop = first(text, at, "{;")
        at = 1 + (first(text, stop + 1, "}") if text[stop] == "{" else stop)
        yield Piece(tidy(start[1]), start[3], start[4], start[2] == "pub ", text[begin:at], tidy(text[begin:head]), text[stop + 1:at - 1], clauses)
    if text[at:].strip():
        raise ValueError(f"cannot read {tidy(text[at:])[:60]}")


def promises(crate, exported, text, scope, owner="", block="", public=None):
    """The owner, part and item of each promise of a file, or of a block of it.

    The block is the head of an `impl` whose signatures are promises of their own, None for one of a trait, and empty in a file.
    """
    parts = list(pieces(text))
    scope = {**scope, **dict(pair for piece in parts if piece.keyword == "ghost use" for pair in imports(piece.head))}
    for piece in parts:
        full = f"{owner}::{piece.name}" if owner else piece.name
        if public is None:
            shown = piece.public and piece.name in exported
        else:
            shown = public and (piece.public or not block)
        if piece.keyword == "fn":
            if shown and block is not None:
                signature = joined(piece.head)
                yield full, "signature", Item([f"{block} {{ {signature} }}" if block else signature])
            yield from ((full, part, Item([clause], (), scope, shown)) for part, clause in piece.clauses)
        elif piece.keyword == "ghost":
            yield owner, piece.name, Item([re.search(r"\{(.*)\}", piece.head)[1].strip()], (), scope, public)
        elif piece.keyword in ("struct", "enum"):
            yield full, "", Item(full_lines(FACT.sub("", piece.whole)), public=shown)
            if shown and piece.marks:
                yield full, "derive", Item([piece.marks])
            yield from ((full, fact, Item([tidy(body)], (), scope, shown)) for fact, body in FACT.findall(piece.whole))
        elif piece.keyword == "type" and owner and shown:
            yield owner, piece.name, Item([tidy(piece.whole)])
        elif piece.keyword in ("const", "type") and shown:
            yield full, "", Item([tidy(piece.whole)] if owner else full_lines(piece.whole))
        elif piece.keyword in ("trait", "impl"):
            yield from block_promises(crate, exported, piece, scope)


def block_promises(crate, exported, block, scope):
    """The promises of a trait or of an implementation."""
    if block.keyword == "trait":
        owner, of, head = block.name, block.name, ""
        scope = {**scope, **{ghost: ("Promises", crate, owner, ghost) for ghost in re.findall(r"\bghost (\w+):", block.body)}}
    else:
        trait, of = IMPL.match(block.head).groups()
        # the signatures in a trait's implementation are the trait's
        owner, head = (re.sub(r"\w+::", "", f"{trait} for {of}"), None) if trait else (of, block.head)
    if of in exported and not head:
        yield owner, "", Item([block.head])
    yield from promises(crate, exported, block.body, scope, owner, head, of in exported)


def exports(text):
    """The names that a library shows, by its `pub use` lines and its own items."""
    uses = re.findall(r"\bpub use [\w:]*?(?:(\w+)|\{([^}]*)\});", text)
    own = re.findall(r"^pub (?:fn|struct|enum|trait|const|type) (\w+)", text, re.MULTILINE)
    return sorted(own + [name.strip() for one, many in uses for name in (one or many).split(",") if name.strip()])


def crate_promises(crate, texts):
    """The promises of a crate's sources, by their keys."""
    exported = exports(texts.get("lib", ""))
    found = [(file, *promise) for file, text in texts.items() for promise in promises(crate, exported, text, {})]
    homes = Counter(owner for _, owner in {(file, owner) for file, owner, _, item in found if "::" not in owner and not item.public})
    items = {("Promises", crate, "exports", ""): Item([", ".join(exported)])} if exported else {}
    for file, owner, part, item in found:
        # private functions of one name are told apart by their files
        key = "Promises", crate, f"{file.split('/')[-1]}::{owner}" if homes[owner] > 1 else owner, part
        assert key not in items, f"{key} stands twice"
        items[key] = item
    return items


# What two revisions have, and what became of it.

def read_items(revision):
    """All items of a revision, by their keys."""
    items, sources = {}, defaultdict(dict)
    for path, text in files(revision).items():
        crate, kind, file = PLACE.fullmatch(path).groups()
        if kind == "src":
            sources[crate][file] = REMARK.sub(lambda m: "" if m[0].startswith("//") else m[0], text)
        elif file != "Lib":
            owner = re.sub(r"/(?:Answers|Invariants)$", "", file)
            items.update(antt_items("Definitions" if kind == "specs" else "Proofs", crate, owner, text))
    for crate, texts in sources.items():
        items.update(crate_promises(crate, texts))
    return items


def words(item):
    return joined(" ".join((*item.frame, *item.lines)))


def names_cited(item):
    scope = {piece: key for name, key in item.scope.items() for piece in [name, *name.split("◌")] if piece}
    text = FIELD.sub(r"\1 ", re.sub(r'"[^"]*"', " ", words(item)))
    # the ghost of a type's trait, as in `M.BrakingModel.meaning`
    of_traits = {("Promises", None, trait, ghost) for trait, ghost in re.findall(r"\.([A-Z]\w*)\.(\w+)", text)}
    return {scope[name] for name in NAME.findall(text) if name in scope} | of_traits


def all_cites(items):
    """The keys that each item cites."""
    index = defaultdict(set)
    for key, item in items.items():
        # what a type derives is not cited with it
        whole = [] if key[3] == "derive" else [None]
        for crate, part in itertools.product((key[1], None), (key[3], *whole, *constructors(item))):
            index[key[0], crate, key[2], part].add(key)
    return {key: {k for name in names_cited(item) for k in index.get(name, ())} - {key} for key, item in items.items()}


def refiled(before, after):
    """The old and the new key of what stands in another file of its crate with the same words."""
    new = {(k[0], k[1], k[3], words(i)): k for k, i in after.items() if k not in before and k[0] != "Promises"}
    pairs = ((k, new.get((k[0], k[1], k[3], words(i)))) for k, i in before.items() if k not in after)
    return {old: key for old, key in pairs if key}


class Change:
    """The items of two revisions by the keys of the later one, what became of each, and what moved below those that stayed."""

    def __init__(self, before, after):
        now = {**{k: k for k in before}, **refiled(before, after)}
        self.before, self.after = {now[k]: item for k, item in before.items()}, after
        self.old_keys = {new: old for old, new in now.items() if new != old}
        keys = sorted([*after, *(k for k in self.before if k not in after)], key=lambda k: k[1])
        self.kinds = {k: self.kind(k) for k in keys}
        old = {now[k]: {now[c] for c in cited} for k, cited in all_cites(before).items()}
        new = all_cites(after)
        self.cites = {k: old.get(k, set()) | new.get(k, set()) for k in keys}
        self.moved = {k: {c for c in self.cites[k] if self.kinds[c] != "stayed"} for k in keys}
        for key in self.of("stayed", keys):
            # a name stands for another item than before
            self.moved[key] |= old[key] ^ new[key]

    def kind(self, key):
        if key not in self.before or key not in self.after:
            return "gone" if key in self.before else "new"
        return "stayed" if words(self.before[key]) == words(self.after[key]) else "changed"

    def of(self, kind, keys):
        return [k for k in keys if self.kinds[k] == kind]

    def item(self, key):
        return self.after.get(key) or self.before[key]

    def reasons(self, key):
        """The moved items first met on each way down through what stayed; of a type or a trait its name alone."""
        seen, level, reached = {key}, {key}, set()
        while level:
            reached |= {c for k in level for c in self.moved[k]}
            level = {c for k in level for c in self.cites[k]} - seen - reached
            seen |= level
        return tuple(sorted({k if k[0] == "Definitions" else (*k[:3], "") for k in reached - {key}}))


# The note.

def shown_name(key):
    between = ", " if key[0] == "Promises" else "."
    return f"`{key[1]} {key[2]}`" if key[3] in ("", "ensures") else f"`{key[1]} {key[2]}{between}{key[3]}`"


def compact(keys, show=lambda key: key[3]):
    """For each crate its owners, with their parts in brackets. What goes without saying is left out: a clause without a name, a signature, what a type derives."""
    for crate, of_crate in itertools.groupby(keys, key=lambda key: key[1]):
        owners = defaultdict(list)
        for key in of_crate:
            owners[key[2]].append(show(key))
        for owner, parts in owners.items():
            shown = [p for p in parts if p not in ("", "signature", "derive")]
            shown = [] if shown == ["ensures"] or (not shown and "" in parts) else shown or parts
            owners[owner] = f"`{owner} ({', '.join(shown)})`" if shown else f"`{owner}`"
        yield crate, ", ".join(owners.values())


def paragraphs(crates):
    return "\n\n".join(f"{crate}: {owners}." for crate, owners in crates)


def under(title, text):
    return [title, text] if text else []


def quoted(bullet, item):
    """A bullet with the words of an item: behind it, or in lines of their own."""
    lines = [*item.frame, *item.lines]
    if len(lines) == 1:
        return f"{bullet}: `{lines[0]}`"
    indent = " " * (bullet.index("-") + 2)
    return "\n".join([f"{bullet}:\n", *(indent + line for line in ["```", *lines, "```"]), ""])


def moved_words(change, keys):
    for key in keys:
        if key in change.old_keys:
            yield f"- {shown_name(change.old_keys[key])}, moved to `{key[2]}`"
        elif change.kinds[key] == "changed":
            yield "\n".join([f"- {shown_name(key)}", quoted("  - before", change.before[key]), quoted("  - after", change.after[key])])
        elif change.kinds[key] != "stayed":
            yield quoted(f"- {shown_name(key)}, {change.kinds[key]}", change.item(key))


def words_of(change, keys, what, level):
    """What became of promises or definitions."""
    groups = defaultdict(list)
    for key in change.of("stayed", keys):
        groups[change.reasons(key)].append(key)
    same = groups.pop((), [])
    kinds = Counter(change.kinds[k] for k in keys)
    yield (f"{what}: {len(keys) - kinds['new']} before, {len(keys) - kinds['gone']} after; {kinds['changed']} changed, {kinds['new']} new, {kinds['gone']} gone, "
           f"{kinds['stayed'] - len(same)} with the same words over something that moved, {len(same)} as before.")
    yield from under(f"{level} Moved", "\n".join(moved_words(change, keys)))
    over = [f"- over {', '.join(map(shown_name, reasons))}: {'; '.join(map(' '.join, compact(groups[reasons])))}." for reasons in sorted(groups)]
    yield from under(f"{level} The same words over something that moved", "\n".join(over))
    yield from under(f"{level} As before", paragraphs(compact(same)))


def proofs(change, keys):
    def row(label, chosen):
        old, new = ([len(items[k].lines) for k in chosen if k in items] for items in (change.before, change.after))
        return f"| {label} | {len(old)} | {len(new)} | {sum(old)} | {sum(new)} |"

    def with_lines(key):
        lines = [str(len(items[key].lines)) for items in (change.before, change.after) if key in items]
        return f"{key[3]} {' -> '.join(lines if change.kinds[key] == 'changed' else lines[-1:])}"

    rows = [row(crate, list(of_crate)) for crate, of_crate in itertools.groupby(keys, key=lambda key: key[1])]
    yield "\n".join(["| crate | proofs before | after | lines before | after |", "|---|---|---|---|---|", *rows, row("all", keys)])
    for title, kind in [("Changed", "changed"), ("New", "new"), ("Gone", "gone")]:
        yield from under(f"### {title}, with their lines", paragraphs(compact(change.of(kind, keys), with_lines)))
    yield from under("### Moved to another file", "\n".join(f"- {shown_name(change.old_keys[k])} to `{k[2]}`" for k in keys if k in change.old_keys))
    yield from under("### As before, with their lines", paragraphs(compact(change.of("stayed", keys), with_lines)))


def note(before, after):
    """The paragraphs of the note."""
    change = Change(read_items(before), read_items(after))
    keys = {section: [k for k in change.kinds if k[0] == section] for section in ("Promises", "Definitions", "Proofs")}
    yield from ["# (What the change is called.)", "(What changed, in three sentences.)", "(How long the check took before and after.)"]
    yield from [f"The lists below are printed by `tools/change_note.py {before} {after}`.", "## Promises"]
    yield from words_of(change, [k for k in keys["Promises"] if change.item(k).public], "Promises to other crates", "###")
    yield "### Contracts of private functions, and private types"
    yield from words_of(change, [k for k in keys["Promises"] if not change.item(k).public], "Inside their crates", "####")
    yield from ["## Definitions", *words_of(change, keys["Definitions"], "Definitions", "###")]
    yield from ["## Proofs", *proofs(change, keys["Proofs"])]


if __name__ == "__main__":
    if len(sys.argv) != 3:
        sys.exit(__doc__)
    print("\n\n".join(paragraph.rstrip("\n") for paragraph in note(*sys.argv[1:])))
