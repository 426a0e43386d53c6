#!/usr/bin/env python3
"""Counts the places that docs/DESIGN-PASS.md tells of:   tools/places.py [-l] [DIR]

DIR is a checkout (default: this one); -l lists each place. Reads crates/*/src/**/*.rt, and for the last point crates/*/proofs.
"""
import re
import sys
from collections import defaultdict
from pathlib import Path

listed = '-l' in sys.argv
rest = [a for a in sys.argv[1:] if a != '-l']
root = Path(rest[0]) if rest else Path(__file__).resolve().parent.parent
files = {p: p.read_text() for p in sorted(root.glob('crates/*/src/**/*.rt'))}


class Function:
    def __init__(self, path, line, name, params, clauses, body):
        self.place = f'{path.relative_to(root)}:{line} {name}'
        self.name, self.params, self.clauses, self.body = name, params, clauses, body


def matching(text, at, close):
    depth, opening = 0, text[at]
    for i in range(at, len(text)):
        if text[i] == opening:
            depth += 1
        elif text[i] == close:
            depth -= 1
            if depth == 0:
                return i
    return len(text)


def functions():
    for path, text in files.items():
        for m in re.finditer(r'^[ \t]*(?:pub )?(?:extern "C" )?fn (\w+)(?:<[^(]*>)?\(', text, re.M):
            end = matching(text, m.end() - 1, ')')
            params = text[m.end():end]
            at = re.compile(r'^[ \t]*\{|(?<=[\w>)\]]) \{$', re.M).search(text, end)
            if at is None:
                continue
            brace = text.index('{', at.start())
            stop = matching(text, brace, '}')
            line = text.count('\n', 0, m.start()) + 1
            yield Function(path, line, m.group(1), ' '.join(params.split()), text[end:brace], text[brace:stop + 1])


FUNCTIONS = list(functions())


def lines(pattern):
    for path, text in files.items():
        for n, line in enumerate(text.splitlines(), 1):
            if re.search(pattern, line) and not line.strip().startswith('//'):
                yield f'{path.relative_to(root)}:{n} {line.strip()}'


def own_results():
    """Enums and fields of the shape of Option or Result, and functions that give a number for a kind or a refusal."""
    for path, text in files.items():
        for m in re.finditer(r'enum (\w+) \{(.*?)\n\}', text, re.S):
            if re.search(r'\b(Refused|Failed|Nothing|Accepted)\b', m.group(2)):
                yield f'{path.relative_to(root)} enum {m.group(1)}'
    yield from lines(r'\bverdict: \w+,$')
    for f in FUNCTIONS:
        arms = re.findall(r'=> (.+?),\n', f.body)
        if 'match' in f.body and len(arms) > 2 and all(re.fullmatch(r'\d+', a) for a in arms):
            yield f.place + ' (numbers)'


def shape(text):
    words = {'if', 'else', 'while', 'for', 'in', 'let', 'mut', 'return', 'match', 'true', 'false', 'loop', 'as', '&mut'}
    return re.sub(r'[A-Za-z_]\w*|\d\w*', lambda m: m.group(0) if m.group(0) in words else 'x', ' '.join(text.split()))


def twins():
    """Functions whose bodies are the same but for names, numbers and types; those of one call or one field are passed over."""
    groups = defaultdict(list)
    for f in FUNCTIONS:
        s = shape(f.body).replace('x::', '').replace('x.', '')
        if len(re.findall(r'\bx\b', s)) > 5:
            groups[s].append(f.place)
    for g in groups.values():
        if len(g) > 1:
            yield from (f'{p}  ~  {g[0].split()[-1]}' for p in g)


def counted_loops():
    """Loops that count or walk by hand."""
    yield from lines(r'^\s*(while|loop)\b')


def by_hand():
    """Conversions by `as`, functions that only convert, fields copied to a local before a match or a call, fields compared one by one."""
    yield from lines(r' as (u8|u16|u32|u64|usize|isize)\b')
    yield from lines(r'^\s*let (\w+) = \w+\.\1;$')
    for f in FUNCTIONS:
        if re.search(r'if (\w+)\[?\w*\]? != .*\{\s*return true;', f.body):
            yield f.place + ' (compares field by field)'
        if re.search(r'\bput\(.*48 \+|DIGITS\[', f.body, re.S):
            yield f.place + ' (prints by hand)'


FACTS = [r'tests ≤ 24', r'columns ≤ 61', r'faults ≤ 60', r'CountsFit', r'WellFormed table', r'length \w+\.now ≡ count \(has set\)']
TRAVEL = [('cells', 'tests'), ('lines', 'stuck'), ('book', 'place', 'sofar'), ('buf', 'at'), ('masks', 'kept'), ('of', 'columns')]


def repeated_facts():
    """Contracts with a fact that stands in three or more, and functions with parameters that travel together in three or more."""
    for fact in FACTS:
        found = [f.place for f in FUNCTIONS if re.search(fact, f.clauses.split('ensures')[0])]
        if len(found) > 2:
            yield from (f'{p}  requires {fact}' for p in found)
    for names in TRAVEL:
        found = [f.place for f in FUNCTIONS if all(re.search(rf'\b{n}:', f.params) for n in names)]
        if len(found) > 2:
            yield from (f'{p}  takes {", ".join(names)}' for p in found)


def lengths_beside():
    """Fields for how much of an array is used, parallel arrays, and stores at a place that is counted up."""
    yield from lines(r'^\s*pub (count|list|of|columns|lines|stuck): ')
    yield from lines(r'^\s*\w+\[(n|j|at|next|count|\w+\.\w+)\] = ')
    yield from lines(r'\b(list|columns|page|book|space)\[\.\.\w+\]')


def switches():
    """Matches whose arms each call a step."""
    for f in FUNCTIONS:
        arms = re.findall(r'=> ([\w:]+)\(', f.body)
        if len(arms) > 3 and len(set(arms)) > 3:
            yield f.place


def proofs():
    """Files of invariants and answers of functions."""
    yield from (str(p.relative_to(root)) for p in sorted(root.glob('crates/*/proofs/**/*.antt')) if p.name in ('Invariants.antt', 'Answers.antt'))


for n, point in enumerate([own_results, twins, counted_loops, by_hand, repeated_facts, lengths_beside, switches, proofs], 1):
    found = list(point())
    print(f'{n} {len(found):4}  {" ".join(point.__doc__.split())}')
    if listed:
        print(''.join(f'        {p}\n' for p in found), end='')
