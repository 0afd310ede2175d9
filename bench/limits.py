#!/usr/bin/env python3
"""limits.py: each limit of an input text has one number, in the definitions, on the page and in the cases.

The numbers are taken from `most` in crates/spec_text/specs/Limits.antt, with the constants that it names. They have to be
those of the list in docs/FORMAT.md, in the same order, and in crates/timbuk_cases/data one case has to stand at each of
them (it is read, and what is counted in its text is the number) and one above (it writes the limit and the number).
The exit status is 1 where one of these is otherwise. Python 3.11 or later."""
import pathlib
import re
import sys
import tomllib

HOME = pathlib.Path(__file__).resolve().parent.parent
CRATES = HOME / 'crates'
DATA = CRATES / 'timbuk_cases' / 'data'
CONSTANTS = [CRATES / 'ranked_terms' / 'specs' / 'Limits.antt', CRATES / 'ta_core' / 'specs' / 'Limits.antt']


def depth(text):
    """How deep parentheses lie in it."""
    found = now = 0
    for c in re.sub(r'\(\*.*?\*\)', '', text, flags=re.S):
        now += (c == '(') - (c == ')')
        found = max(found, now)
    return found


def part(text, first, last):
    """What stands between two words."""
    return re.search(rf'\b{first}\b(.*?)(?:\b{last}\b|$)', text, re.S).group(1)


def sections(word):
    return lambda text: len(re.findall(rf'\b{word}\s+\w+', text))


# Each limit with the case that stands at it, and what is counted there.
AT = {
    'name-bytes': ('up to a limit: a name of 255 bytes', lambda t: max(map(len, re.findall(r'\w+', t)))),
    'symbols': ('up to a limit: 4,096 symbols', lambda t: len(re.findall(r':', part(t, 'Ops', 'Vars|TRS|Automaton')))),
    'declared': ('up to a limit: 1,024 variables', lambda t: len(part(t, 'Vars', 'TRS|Automaton').split())),
    'arity': ('up to a limit: 16 variables in a rule',
              lambda t: max(map(int, re.findall(r':(\d+)', part(t, 'Ops', 'Vars'))))),
    'nesting': ('up to a limit: nested 100 deep', depth),
    'variables': ('up to a limit: 16 variables in a rule',
                  lambda t: len(set(re.findall(r'\bv\d+', part(t, 'TRS', 'Automaton'))))),
    'rules': ('up to a limit: 4,096 rules', lambda t: part(t, 'TRS', 'Automaton').count('->')),
    'equations': ('up to a limit: 1,024 equations', lambda t: part(t, 'Rules', 'Automaton').count('=')),
    'entries': ('up to a limit: 1,024 entries', lambda t: part(t, 'Rules', 'Equations').count('->') - 2),
    'states': ('up to a limit: 16,384 states', lambda t: len(part(t, 'States', 'Final').split())),
    'automata': ('a text with every section', sections('Automaton')),
    'systems': ('a text with every section', sections('TRS')),
    'equation-sections': ('a text with every section', sections('Equations')),
    'approximations': ('a text with every section', sections('Approximation')),
}


def definitions():
    """The limits with their numbers, in order, as `most` has them."""
    named = {}
    for path in CONSTANTS:
        named.update((name, int(number)) for name, number in re.findall(r'^(\w+) = (\d+)$', path.read_text(), re.M))
    rows = re.findall(r'^most limit\.(\w+) = (\w+)$', (CRATES / 'spec_text/specs/Limits.antt').read_text(), re.M)
    spelled = dict(re.findall(r'^limit_name limit\.(\w+) = codes "([\w-]+)"$',
                              (CRATES / 'calls/specs/FaultText.antt').read_text(), re.M))
    return [(spelled[limit], int(number) if number.isdigit() else named[number]) for limit, number in rows]


def text_of(case):
    """The text of a case's file."""
    for name in case.get('copies', []):
        return (DATA / name).read_text()
    made = ''
    given = next(iter(case['files'].values()))
    for it in [{'text': given}] if isinstance(given, str) else given:
        times = it.get('times', 1)
        made += ''.join(it['text'].replace('{}', str(i)) for i in range(times))
    return made


def faults(limits, cases):
    page = re.search(r'^## Limits$(.*?)^## ', (HOME / 'docs' / 'FORMAT.md').read_text(), re.M | re.S).group(1)
    listed = [(name, int(number)) for name, number in re.findall(r'^\d+\. `([\w-]+) (\d+)`', page, re.M)]
    if listed != limits:
        yield f'docs/FORMAT.md has {listed}, and the definitions {limits}'
    for name, number in limits:
        shown, count = AT[name]
        if shown not in cases:
            yield f'{name}: no case shows `{shown}`'
            continue
        found = count(text_of(cases[shown]))
        if found != number or cases[shown]['status'] == 'BadSpec':
            yield f'{name}: the case `{shown}` has {found} and answers {cases[shown]["status"]}, and the limit is {number}'
        if not any(case['writes'].endswith(f': Limit {name} {number}\n') for case in cases.values()):
            yield f'{name}: no case is above {number}'


def main():
    cases = {}
    for path in sorted(DATA.glob('*.toml')):
        cases.update((case['shows'], case) for case in tomllib.loads(path.read_text())['case'])
    limits = definitions()
    wrong = list(faults(limits, cases))
    print('\n'.join(wrong + [f'{len(limits)} limits, {len(wrong)} faults']))
    return 1 if wrong or not limits else 0


if __name__ == '__main__':
    sys.exit(main())
