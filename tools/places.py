#!/usr/bin/env python3
"""Lists the places in crates/*/src that a point of docs/DESIGN-PASS.md may speak of: `tools/places.py POINT [FOLDER]`.

A line is a place to look at, not a verdict. Tests (tests.rt and what stands behind #[cfg(test)]) are read for loops only.
"""
import collections
import difflib
import glob
import os
import re
import sys

FN = re.compile(r'(?m)^( *)(?:pub(?:\([a-z]+\))? )?(?:extern "C" )?fn (\w+)')


class Function:
    def __init__(self, path, line, name, params, result, clauses, body, test):
        self.path, self.line, self.name, self.params = path, line, name, params
        self.result, self.clauses, self.body, self.test = result, clauses, body, test
        self.crate = path.split('/')[1]

    def __str__(self):
        return f'{self.path}:{self.line} {self.name}'


def closing(text, at, opening, closes):
    depth = 0
    while True:
        if text[at] == opening:
            depth += 1
        elif text[at] == closes and not (closes == '>' and text[at - 1] in '-='):
            depth -= 1
            if depth == 0:
                return at
        at += 1


def split(text):
    parts, depth, last = [], 0, 0
    for i, c in enumerate(text):
        if c in '([<{':
            depth += 1
        elif c in ')]}' or (c == '>' and text[i - 1] not in '-='):
            depth -= 1
        elif c == ',' and depth == 0:
            parts.append(text[last:i])
            last = i + 1
    parts.append(text[last:])
    return [re.sub(r'\s+', ' ', p).strip() for p in parts if p.strip()]


def functions(path):
    text = re.sub(r'//[^\n]*', '', open(path).read())
    tests = text.find('#[cfg(test)]')
    for m in FN.finditer(text):
        at = m.end()
        if text[at] == '<':
            at = closing(text, at, '<', '>') + 1
        end = closing(text, at, '(', ')')
        params = split(text[at + 1:end])
        rest = text[end + 1:]
        result = re.match(r'\s*->\s*([^\n;]+?)\s*(?:\{\}?|;|\n|$)', rest)
        clauses, body, pos = [], '', 0
        while True:
            nxt = re.compile(r'[{;]').search(rest, pos)
            if nxt is None or nxt.group() == ';':
                break
            close = closing(rest, nxt.start(), '{', '}')
            head = re.search(r'(requires|ensures)\*?(?: \w+)?\s*$', rest[:nxt.start()])
            if head is None:
                body = rest[nxt.start():close + 1]
                break
            clauses.append((head.group(1), rest[nxt.start() + 1:close].strip()))
            pos = close + 1
        line = text.count('\n', 0, m.start()) + 1
        test = 'tests' in os.path.basename(path) or 0 <= tests < m.start()
        yield Function(path, line, m.group(2), params, result.group(1) if result else '', clauses, body, test)


def facts(clause):
    clause = clause.strip()
    while clause.startswith('(') and closing(clause, 0, '(', ')') == len(clause) - 1:
        clause = clause[1:-1].strip()
    depth, parts, last = 0, [], 0
    for i, c in enumerate(clause):
        if c in '([{':
            depth += 1
        elif c in ')]}':
            depth -= 1
        elif c == '×' and depth == 0:
            parts.append(clause[last:i])
            last = i + 1
    parts.append(clause[last:])
    return [clause] if len(parts) == 1 else [f for p in parts for f in facts(p)]


def lines(paths, pattern):
    for path in paths:
        for n, line in enumerate(open(path), 1):
            if re.search(pattern, line) and not line.strip().startswith('//'):
                yield f'{path}:{n} {line.strip()}'


def kinds(paths, fns):
    "1: enums, flags beside a value, numbers for kinds and refusals"
    yield from lines(paths, r'^\s*(pub(\(\w+\))? )?enum ')
    for f in fns:
        if not f.test and re.match(r'(bool|Result<bool)', f.result) and any('&mut' in p for p in f.params):
            yield f'{f} -> {f.result}, beside a &mut'
    yield from lines(paths, r"Result<[^{]*&'static str>")
    for path in paths:
        named = [(n, line.strip()) for n, line in enumerate(open(path), 1) if re.match(r'(pub )?const \w+: (u8|u64) = \d+;', line)]
        small = [c for c in named if int(c[1].split()[-1][:-1]) < 20]
        if len(small) >= 5:
            yield f'{path}:{small[0][0]} {len(small)} small numbers by name'
        arms = [n for n, line in enumerate(open(path), 1) if re.match(r'\s*\d+ (\| \d+ )*=> ', line)]
        if len(arms) >= 3:
            yield f'{path}:{arms[0]} {len(arms)} arms on a number'
    yield from lines(paths, r'(Refused|No|NoRefusal)\(u64\)|\.number\(\)|Refusal::\w+ as u64|fn number\(self\)')


def tokens(body):
    body = re.sub(r'\b[A-Z][A-Z_0-9]+\b|\b\d[\d_]*\b', 'N', body)
    return re.findall(r'\w+|[^\w\s]', re.sub(r'\b[A-Z]\w*(::[A-Z]\w*)*', 'T', body))


def twins(paths, fns):
    "2: functions alike but for types, numbers and a few words"
    seen = [(f, tokens(f.body)) for f in fns if not f.test]
    seen = [(f, t) for f, t in seen if len(t) >= 14]
    for i, (f, a) in enumerate(seen):
        for g, b in seen[i + 1:]:
            if f.name == g.name == 'fmt' or abs(len(a) - len(b)) > 12:
                continue
            if difflib.SequenceMatcher(None, a, b, False).ratio() >= 0.86:
                yield f'{f} ~ {g}'


def loops(paths, fns):
    "3: loops"
    return lines(paths, r'^\s*(\'\w+: )?(for|while|loop)\b.*\{')


def by_hand(paths, fns):
    "4: equality, order, copying, conversion and printing by hand"
    words = r'copy|equals|same\w*|begins_with|none|number|words|word|mode|in_numbers|leaves|of|told|value_of|byte_of|digit_of|add|count|tenths'
    for f in fns:
        if not f.test and re.fullmatch(words, f.name):
            yield f'{f} -> {f.result}'
    yield from lines(paths, r'^impl.*\bfor \w+')


def together(paths, fns):
    "5: facts in three contracts or more, parameters that travel together"
    said, pairs = collections.defaultdict(list), collections.defaultdict(list)
    for f in fns:
        if f.test:
            continue
        for kind, clause in f.clauses:
            for fact in facts(clause):
                if fact != 'result':
                    said[f.crate, kind, fact].append(f.name)
        params = sorted(p for p in f.params if not p.endswith('self'))
        for i, p in enumerate(params):
            for q in params[i + 1:]:
                pairs[f.crate, p, q].append(f.name)
    for (crate, kind, fact), names in sorted(said.items(), key=lambda e: -len(e[1])):
        if len(names) >= 3:
            yield f'{len(names)} {crate}: {kind} {fact} in {", ".join(names)}'
    for (crate, p, q), names in sorted(pairs.items(), key=lambda e: -len(e[1])):
        if len(names) >= 3:
            yield f'{len(names)} {crate}: ({p}, {q}) in {", ".join(names)}'


def buffers(paths, fns):
    "6: buffers with a length beside, parallel arrays, index arithmetic"
    for path in paths:
        for m in re.finditer(r'(?m)^(pub )?struct (\w+)[^{;]*\{([^}]*(?:\{[^}]*\}[^}]*)*)^\}', open(path).read()):
            fields = re.findall(r'(?m)^ +(?:pub )?(\w+): ((?:&\S+ )?(?:\[.*\]|Vec<.*>)),$', m.group(3))
            if fields:
                yield f'{path} {m.group(2)}: ' + ', '.join(f'{n}: {t}' for n, t in fields)
    yield from lines(paths, r'\b(page|q|t|i|index|person|people|boxes|k) (as usize )?\* [A-Z]|[A-Z]{2} \* (i|t|q|k|index|person|people|boxes|\(mem)|(\w) [/%] [A-Z_]{5,}\b')


def switches(paths, fns):
    "7: a match with a call in each arm"
    for f in fns:
        arms = re.findall(r'=>\s*(.{0,60})', f.body)
        calls = [a for a in arms if re.match(r'(Ok\(|Some\()?[a-z_:.]+\(', a)]
        if not f.test and len(arms) >= 2 and len(calls) * 3 >= len(arms) * 2 and f.name != 'fmt':
            yield f'{f}: {len(calls)} of {len(arms)} arms'


POINTS = {'1': kinds, '2': twins, '3': loops, '4': by_hand, '5': together, '6': buffers, '7': switches}


def main():
    if len(sys.argv) < 2 or sys.argv[1] not in POINTS:
        print('usage: tools/places.py POINT [FOLDER]\n' + '\n'.join(p.__doc__ for p in POINTS.values()))
        return 2
    os.chdir(sys.argv[2] if len(sys.argv) > 2 else os.path.join(os.path.dirname(os.path.abspath(__file__)), '..'))
    paths = sorted(glob.glob('crates/*/src/*.rt'))
    found = list(POINTS[sys.argv[1]](paths, [f for p in paths for f in functions(p)]))
    print('\n'.join(found))
    print(f'{len(found)} places to look at')
    return 0


if __name__ == '__main__':
    sys.exit(main())
