#!/usr/bin/env python3
"""library_cases_stdout.py [--check]: the expected output of crates/library_cases, made from what its tables expect.

The tables in crates/library_cases/data hold each case with the answer that is expected of it, worked out by hand. This
writes crates/library_cases/args, the names of the tables, and crates/library_cases/stdout, what the program prints where
each case has its expected answer; the gate runs the program and compares. With --check nothing is written, and the exit
status is 1 where one of the two differs."""
import pathlib
import sys
import tomllib

CRATE = pathlib.Path(__file__).resolve().parent.parent / 'crates' / 'library_cases'
TABLES = ['calls', 'certificates']


def lines(answer):
    """The lines of an answer, of which the last one may stand in the table without its end."""
    return answer + '\n' if answer and not answer.endswith('\n') else answer


def main():
    text = ''
    for name in TABLES:
        with open(CRATE / 'data' / f'{name}.toml', 'rb') as file:
            calls = tomllib.load(file)['call']
        if len({call['shows'] for call in calls}) < len(calls):
            sys.exit(f'{name}: two cases show the same')
        text += f'== {name}.toml\n'
        text += ''.join(f'\n{call["shows"]}\n{lines(call["answers"])}' for call in calls)
    for name, made in {'args': ''.join(f'{name}.toml\n' for name in TABLES), 'stdout': text}.items():
        path = CRATE / name
        if '--check' in sys.argv[1:]:
            if path.read_text() != made:
                sys.exit(f'{path} is not what the tables expect')
        else:
            path.write_text(made)


main()
