#!/usr/bin/env python3
"""Spells the repository's own definitions, fields and lemmas as today's library spells its own: types in upper camel case, all else in snake case.

  docs/history/own_names.py           rewrites crates/*/{src,specs,proofs,must-fail} in place
  docs/history/own_names.py --check   only lists what would change, and the names that fall together

Run once, right behind the kit's own script. Functions of the program, strings, inputs and outputs are not touched: a name with a dash cannot be one of theirs.
"""
import collections
import os
import re
import sys

WORD = re.compile(r'[^\s(){}.;,@"«»`]+')
HEAD = re.compile(r"^(?P<indent> *)(?:(?:abbrev|unfoldable) )?(?:pub )?(?P<kind>record |data )?(?P<name>[^\s(){}.;,@\"«»:=]+)(?: \([^)]*\)| \{[^}]*\})* :(?= )(?P<type>.*)$")
STRING = re.compile(r'"(?:[^"\\\n]|\\.)*"')


def files(*ends):
    for folder, dirs, names in os.walk("crates"):
        dirs[:] = sorted(d for d in dirs if d != "out")
        for name in sorted(names):
            if name.endswith(ends):
                yield os.path.join(folder, name)


def read(path):
    with open(path, encoding="utf-8") as file:
        return file.read()


def declared():
    """The names that the repository declares in specs/ and proofs/, the answers of goals left out."""
    names = set()
    for path in files(".antt"):
        for line in read(path).split("\n"):
            head = HEAD.match(line)
            if head and not head["type"].strip().startswith("goal."):
                names.add(head["name"])
    return names


def imported():
    """The names that are brought in from outside the repository, by the kit's paths."""
    own = {c for c in os.listdir("crates")}
    names = set()
    for path in files(".antt", ".rt"):
        for module, items in re.findall(r"(?m)^(?:ghost )?use (\S+?)\.\{([^}]*)\}", read(path)):
            parts = module.split(".")
            if not (parts[0] == "Rattle" and parts[1] in own):
                names.update(i.strip().split(" as ")[0] for i in items.split(","))
    return names


def spelled(name):
    parts = name.split("-")
    if name[0].isupper():
        return "".join(p[:1].upper() + p[1:] for p in parts)
    return "_".join(parts)


def turn_words(text, table):
    return WORD.sub(lambda m: table.get(m[0], m[0]), text)


def turn_code(text, table):
    """Comments and strings stay as they are."""
    lines = []
    for line in text.split("\n"):
        code, sign, comment = line, "", ""
        at = re.search(r"(?<!\S)--(?= |$)|//", line)
        if at:
            code, sign, comment = line[: at.start()], at[0], line[at.end():]
        kept, last = "", 0
        for m in STRING.finditer(code):
            kept += turn_words(code[last:m.start()], table) + m[0]
            last = m.end()
        lines.append(kept + turn_words(code[last:], table) + sign + comment)
    return "\n".join(lines)


def main():
    names = declared()
    outside = imported()
    table = {n: spelled(n) for n in names if "-" in n and n not in outside}
    back = collections.defaultdict(set)
    for n in names:
        back[table.get(n, n)].add(n)
    for new, olds in sorted(back.items()):
        if len(olds) > 1 or (new in outside and new not in names):
            print(f"falls together: {', '.join(sorted(olds))} as {new}" + (" with a name from outside" if new in outside else ""))
    for n in sorted(n for n in names if "-" in n and n in outside):
        print(f"stays, since a name from outside has the same spelling: {n}")
    changed = 0
    for path in files(".antt", ".rt", ".edit"):
        old = read(path)
        new = turn_code(old, table)
        if new != old:
            changed += 1
            if "--check" not in sys.argv:
                with open(path, "w", encoding="utf-8") as file:
                    file.write(new)
    print(f"{len(table)} names, {changed} files")


if __name__ == "__main__":
    os.chdir(os.path.join(os.path.dirname(os.path.abspath(__file__)), "..", ".."))
    main()
