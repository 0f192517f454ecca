#!/usr/bin/env python3
"""Finds the places of src/ that the page of the design pass counts.

    python3 docs/history/places.py            the count of each point
    python3 docs/history/places.py --list     each place, with its line

It reads the .rt files of every crate's src/ as text, and proves nothing: what it finds is a place to look at."""
import collections
import glob
import re
import sys

KEYWORDS = set("as break const continue else enum false fn for if impl in let loop match mod move mut pub ref return self Self static struct trait true type use where while".split())


def skip_braces(text, at):
    depth = 0
    while at < len(text):
        if text[at] == '{':
            depth += 1
        elif text[at] == '}':
            depth -= 1
            if depth == 0:
                return at + 1
        at += 1
    return at


def functions(path, text):
    """(line, name, parameters, clauses, body) of each function that has a body."""
    for found in re.finditer(r'\bfn (\w+)', text):
        at, depth, start = found.end(), 0, found.end()
        while at < len(text) and not (text[at] in '{;' and depth == 0):
            if text.startswith(('requires', 'ensures'), at) and depth == 0 and text[at - 1].isspace():
                break
            depth += text[at] in '([' and 1 or (text[at] in ')]' and -1 or 0)
            at += 1
        signature, clauses = text[start:at], []
        while True:
            rest = re.compile(r'\s*(?://[^\n]*\n\s*)*(requires|ensures)\*?\s*(\w*)\s*\{').match(text, at)
            if not rest:
                break
            end = skip_braces(text, rest.end() - 1)
            clauses.append(text[rest.end():end - 1].strip())
            at = end
        rest = re.compile(r'\s*\{').match(text, at)
        if rest:
            end = skip_braces(text, rest.end() - 1)
            yield text.count('\n', 0, found.start()) + 1, found.group(1), signature, clauses, text[rest.end():end - 1]


def shape(body):
    """The body with names, types and numbers by the order in which they come."""
    names, out = {}, []
    body = re.sub(r'//[^\n]*', '', body)
    for token in re.findall(r'b?"[^"]*"|b?\'[^\']*\'|\w+|[^\w\s]', body):
        if re.fullmatch(r'\w+', token) and token not in KEYWORDS or token[0] in '"\'' or token[:2] in ('b"', "b'"):
            out.append('n%d' % names.setdefault(token, len(names)))
        else:
            out.append(token)
    return ' '.join(out)


def variants(body):
    body = re.sub(r'//[^\n]*', '', body)
    return [v.strip() for v in re.split(r',\s*\n', body + '\n') if v.strip(' ,\n')]


LINES = [
    # point, what, pattern of a line
    (3, 'a loop over numbers', r'\bfor \w+ in [^{]*\.\.|\bwhile (?!let)'),
    (3, 'a loop with the index beside the item', r'\.enumerate\(\)'),
    (4, 'a test that wraps one comparison', r'^\s*\w+ == (b\'.*\'|\w+)$'),
    (4, 'a cast', r'(?<!self )\bas (u8|u16|u32|u64|usize|i64|i32|isize)\b'),
    (4, 'a part taken out to be printed', r'let \w+ = .*\.(number|byte|word)\(\);$'),
    (6, 'a place beside a buffer', r'\w+: &(\'a )?(mut )?\[\w+(<\w+>)?\], (at|from): usize|^\s*(len|at): usize,$'),
]

WHOLE = [
    # point, what, pattern of the text
    (1, 'a way out by hand', r'let (Some|Ok)\([^)]*\) = [^;{]* else \{\s*return (None|Err\([^;]*\));\s*\}'),
    (1, 'a result passed on by hand', r'(Some|Ok)\((\w+|\(\))\) => (\2|(Some|Ok)\(.*\)|Err\(.*\)),?\n|Err\(\w+\) => (Err\(.*\)),?\n|None => (None|Err\(.*\)|unreachable\(\)|return .*),?\n|unreachable\(\)\n'),
    (4, 'a test by cases', r'match [^{]*\{(\s*[\w:(), ]+ => (true|false|self\.\w+),)+\s*\}'),
]


def collect(root='.'):
    places = []
    shapes, facts, groups = collections.defaultdict(list), collections.defaultdict(set), collections.defaultdict(set)
    for path in sorted(glob.glob(root + '/crates/*/src/**/*.rt', recursive=True)):
        text = open(path).read()
        where = path[len(root) + 1:]
        for number, line in enumerate(text.split('\n'), 1):
            code = line.split('//')[0].rstrip()
            if code.startswith('ghost use') or re.match(r'\s*(requires|ensures)', code):
                continue
            for point, what, pattern in LINES:
                if re.search(pattern, code):
                    places.append((point, where, number, what + ': ' + code.strip()))
        for point, what, pattern in WHOLE:
            for found in re.finditer(pattern, text):
                places.append((point, where, text.count('\n', 0, found.start()) + 1, what + ': ' + ' '.join(found.group().split())))
        for found in re.finditer(r'enum (\w+)(?:<[^>]*>)? \{(.*?)\n\s*\}', text, re.S):
            vs = variants(found.group(2))
            bare = [v for v in vs if re.fullmatch(r'\w+( = \d+)?,?', v)]
            full = [v for v in vs if '(' in v]
            if len(vs) <= 3 and bare and full:
                places.append((1, where, text.count('\n', 0, found.start()) + 1, 'an enum with a bare and a full variant: ' + found.group(1)))
        for found in re.finditer(r'match [^{]*\{', text):
            arms = text[found.end():skip_braces(text, found.end() - 1) - 1]
            calls = re.findall(r'=> (?:self\.)?[a-z_]+(?:\.[a-z_]+)?\([^\n]*\),?\n', arms)
            if len(calls) >= 2 and len(calls) == arms.count('=>'):
                places.append((7, where, text.count('\n', 0, found.start()) + 1, 'a switch over calls'))
        for line, name, signature, clauses, body in functions(path, text):
            if re.search(r'match self \{(\s*[\w:(), ]+ => [\d\w.()]+,)*\s*[\w:(), ]+ => \d+,', body):
                places.append((1, where, line, 'a number for each kind: ' + name))
            if len(re.findall(r'\w+|[^\w\s]', body)) >= 9:
                shapes[shape(body)].append((where, line, name))
            for clause in clauses:
                facts[re.sub(r'\b(self|result)\.(old|new|now)\b', r'\1', clause)].add((where, line, name))
            parameters = signature[signature.index('('):].split('->')[0]
            names = [n for n in re.findall(r'(\w+): ', parameters) if n != 'rt']
            for i in range(len(names)):
                for j in range(i + 1, len(names)):
                    groups[(names[i], names[j])].add((where, line, name))
    for same in shapes.values():
        if len(same) > 1:
            for where, line, name in same:
                places.append((2, where, line, 'alike in %d places: %s' % (len(same), name)))
    for fact, whose in facts.items():
        if len(whose) >= 3 and 'result ≡' not in fact:
            for where, line, name in sorted(whose):
                places.append((5, where, line, 'a fact of %d functions: %s' % (len(whose), fact)))
    together = collections.defaultdict(set)
    for pair, whose in groups.items():
        if len(whose) >= 4:
            for where, line, name in whose:
                together[where, line, name].add('%s+%s' % pair)
    for (where, line, name), pairs in together.items():
        places.append((5, where, line, 'parameters that go together: %s: %s' % (name, ' '.join(sorted(pairs)))))
    return sorted(set(places))


def main():
    places = collect()
    if '--list' in sys.argv:
        for point, where, line, what in places:
            print('%d  %s:%d  %s' % (point, where, line, what))
    for point in (1, 2, 3, 4, 5, 6, 7):
        mine = [p for p in places if p[0] == point]
        kinds = collections.Counter(re.split(r'[:]| in \d+| of \d+', p[3])[0] for p in mine)
        print('point %d: %d places (%s)' % (point, len(mine), ', '.join('%s %d' % (k, n) for k, n in kinds.most_common())))
    answers = sum(len(re.findall(r'^pub \S+ : goal\.', open(p).read(), re.M)) for p in glob.glob('crates/*/proofs/**/*.antt', recursive=True))
    lines = sum(open(p).read().count('\n') for p in glob.glob('crates/*/proofs/**/*.antt', recursive=True))
    print('point 8: %d answers, %d lines of proofs' % (answers, lines))


main()
