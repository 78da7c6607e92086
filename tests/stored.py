"""The stored cases (tests/cases/*.jsonl), and the input and output of a program that is run on them."""
import json
import pathlib
import sys

ROOT = pathlib.Path(__file__).resolve().parents[1]
BUFFER = 65536  # the longest output buffer, and the longest text, that a program of frames takes
LETTERS = {'list': 'L', 'export': 'E', 'read': 'R'}  # of the entry points


def cases():
    for path in sorted((ROOT / 'tests/cases').glob('*.jsonl')):
        yield from map(json.loads, path.read_text(encoding='ascii').splitlines())


def op(case):
    """The entry point of a case."""
    return case.get('op', 'list')


def frame(case):
    """A case as cases::frames takes it. Each character of a text stands for the byte with its code."""
    text, buffer = case['text'], case['buffer']
    assert len(text) <= BUFFER and buffer <= BUFFER, 'a case is longer than the programs take'
    return f'\n{LETTERS[op(case)]}{len(text):05d} {buffer:05d}\n{text}'.encode('latin-1')


def write_or_check(crate, stdin, stdout):
    """Writes both files of a program, or with --check says whether they are what would be written."""
    check = sys.argv[1:] == ['--check']
    for name, content in (('stdin', stdin), ('stdout', stdout)):
        path = ROOT / 'crates' / crate / name
        if not check:
            path.write_bytes(content)
        elif path.read_bytes() != content:
            sys.exit(f'{path.relative_to(ROOT)}: not what {sys.argv[0]} makes from the stored cases')
    if check:
        print(f'the program {crate} is given what the stored cases say')
