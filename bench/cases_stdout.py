#!/usr/bin/env python3
"""cases_stdout.py [--check]: the expected output of crates/timbuk_cases, made from the answers that its tables expect.

The tables in crates/timbuk_cases/data hold each case with the status and the text that are expected of it, worked out by
hand. This writes crates/timbuk_cases/args, the names of the tables, and crates/timbuk_cases/stdout, what the program
prints where each case has its expected answer; the gate runs the program and compares. With --check nothing is written,
and the exit status is 1 where one of the two differs."""
import pathlib
import sys
import tomllib

CRATE = pathlib.Path(__file__).resolve().parent.parent / 'crates' / 'timbuk_cases'
TABLES = ['rows', 'examples', 'verdicts', 'complete', 'check', 'faults', 'limits', 'words', 'devices']
# The exit status of each answer, as docs/PROMISES.md has them.
CODES = {
    'Unreachable': 0, 'Reachable': 1, 'Undecided': 2, 'Accepted': 0, 'Rejected': 3, 'BadWords': 64, 'BadSpec': 65,
    'BadCert': 66, 'TooLong': 67, 'ReadFault': 70, 'WriteFault': 71, 'Memory': 75,
}


def expected(case):
    """What is printed of a case that answers as expected."""
    status, text = case['status'], case['writes']
    yield ''
    yield case['shows']
    yield f'{status} {CODES[status]}'
    for name, left in sorted(case.get('leaves', {}).items()):
        yield f'{left} bytes are left of {name}'
    for line in text.split('\n')[:-1]:
        yield f'| {line}'
    if not text.endswith('\n') and text:
        yield '| ' + text.split('\n')[-1]
        yield '(the last line has no end)'


def main():
    lines = []
    for name in TABLES:
        lines.append(f'== {name}.toml')
        with open(CRATE / 'data' / f'{name}.toml', 'rb') as table:
            cases = tomllib.load(table)['case']
        shown = [case['shows'] for case in cases]
        if len(set(shown)) < len(shown):
            sys.exit(f'{name}: two cases show the same')
        for case in cases:
            lines.extend(expected(case))
    made = {
        'args': ''.join(f'{name}.toml\n' for name in TABLES),
        'stdout': ''.join(line + '\n' for line in lines),
    }
    for name, text in made.items():
        path = CRATE / name
        if '--check' in sys.argv[1:]:
            if path.read_text() != text:
                sys.exit(f'{path} is not what the tables expect')
        else:
            path.write_text(text)


main()
