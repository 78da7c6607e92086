#!/usr/bin/env python3
"""Counts the places of docs/DESIGN-PASS.md in src/: `tools/forms.py [TREE]`, with `--list` each place too."""
import re
import sys
from pathlib import Path

TREE = Path(next((a for a in sys.argv[1:] if not a.startswith('--')), Path(__file__).resolve().parent.parent))
LIST = '--list' in sys.argv
FILES = {str(f.relative_to(TREE)): f.read_text() for f in sorted(TREE.glob('crates/*/src/**/*.rt'))}

# A variant that says that there is nothing, or why not.
NOTHING = r'(?:Nothing|None|TooBig|NotWhole|Unknown|NoRoom|Free\(usize\)|Refused\((?:rules::)?Refusal, u64\)),'


def line(text, at):
    return text.count('\n', 0, at) + 1


def finds(pattern, flags=re.M):
    """each place of a pattern: file, line, what was found"""
    for name, text in FILES.items():
        for m in re.finditer(pattern, text, flags):
            yield name, line(text, m.start()), m.group(0).strip().split('\n')[0]


def enums():
    for name, text in FILES.items():
        for m in re.finditer(r'^(?:pub )?enum (\w+) \{\n(.*?)^\}', text, re.M | re.S):
            if re.search(r'^ +' + NOTHING, m.group(2), re.M):
                yield name, line(text, m.start()), 'enum ' + m.group(1)


def functions():
    for name, text in FILES.items():
        for m in re.finditer(r'^( *)(?:pub )?fn (\w+)(?:<[^>]*>)?\(', text, re.M):
            end = re.compile(r'^' + m.group(1) + r'\}', re.M).search(text, m.end())
            yield name, line(text, m.start()), m.group(2), text[m.start():end.end() if end else len(text)]


def shape(body):
    """a function with its names, numbers and strings taken out, and without its clauses"""
    body = re.sub(r'//[^\n]*', '', body)
    body = re.sub(r'^ +(?:ensures|requires)[^\n]*\n', '', body, flags=re.M)
    body = re.sub(r'b?"[^"]*"|b?\'[^\']*\'', 'S', body)
    body = re.sub(r'\b\d+\b', 'N', body)
    keep = {'fn', 'pub', 'let', 'mut', 'if', 'else', 'while', 'for', 'in', 'match', 'return', 'continue', 'break', 'self', 'Self', 'true', 'false', 'as', 'impl'}
    body = re.sub(r'[A-Za-z_]\w*', lambda m: m.group(0) if m.group(0) in keep else 'x', body)
    return re.sub(r'\s+', ' ', body)


def twins():
    """functions of seven lines and more whose shape another one has"""
    by = {}
    for name, at, fn, body in functions():
        if body.count('\n') >= 7:
            by.setdefault(shape(body), []).append((name, at, 'fn ' + fn))
    for group in by.values():
        if len(group) > 1:
            yield from group


def together(*params):
    """functions that take all of these parameters"""
    for name, at, fn, body in functions():
        head = body[:body.find('{')] if '{' in body else body
        head = re.split(r'\n *(?:ensures|requires)', body)[0]
        if all(re.search(r'\b' + p, head) for p in params):
            yield name, at, 'fn ' + fn


POINTS = [
    ('1 enums of the shape of Option or Result', enums),
    ('1 a flag or an end beside a value', lambda: finds(r'^ +(?:pub )?(?:end: (?:Move|Result<usize, Refused>)|has: bool|present: bool|more: bool),')),
    ('1 numbers for kinds, as constants', lambda: ((f, l, w) for f, l, w in finds(r'^pub const [A-Z_]+: (?:u8|u64) = (?:\d+|b\'.\');') if f.endswith(('marks.rt', 'kinds.rt', 'sorts.rt')))),
    ('2 functions of one shape', twins),
    ('3 loops that count by hand', lambda: finds(r'^ +while .*$')),
    ('4 equality, order, conversion, printing by hand', lambda: finds(r'^ *(?:pub )?fn (?:same_bytes|same_name|at_most|is_zero|of_whole|whole_of|number|refusal|print|kind_number|mark|negated|is_at|is_below|key_at)\(')),
    ('5 text, names and tokens side by side', lambda: together('text: &\\[u8\\]', 'names: &\\[u64\\]', 'tokens: &\\[u64\\]')),
    ('5 names, tokens and table side by side', lambda: together('names: &\\[u64\\]', 'tokens: &\\[u64\\]', 'table: &(?:mut )?\\[(?:u64|Row)')),
    ('5 out and at side by side', lambda: together('out: &mut \\[u8\\]', '(?:at|place): usize')),
    ('6 at most four values and their count', lambda: finds(r'^ +(?:pub )?count: usize,\n +(?:pub )?(?:a|first): \w+,')),
    ('6 tables of words', lambda: ((f, l, 'fn ' + n) for f, l, n, b in functions() if re.search(r'&(?:mut )?\[u64', re.split(r'\n *(?:ensures|requires)', b)[0]))),
    ('6 a table with its length beside', lambda: ((f, l, 'fn ' + n) for f, l, n, b in functions() if re.search(r'\b(?:table|variables): &(?:mut )?\[(?:u64|Row)[^)]*(?:given|\bn|from|total|rows): usize', re.split(r'\n *(?:ensures|requires)', b)[0], re.S))),
    ('7 a parameter that says which step to run', lambda: ((f, l, 'fn ' + n) for f, l, n, b in functions() if re.search(r'\b(?:greatest|away|class|kind|floor|minus|equal): (?:bool|Class|Kind|Report|Entry)', re.split(r'\n *(?:ensures|requires)', b)[0]))),
]

for what, places in POINTS:
    found = list(places())
    print(f'{len(found):4}  {what}')
    if LIST:
        for name, at, text in found:
            print(f'        {name}:{at}: {text}')
