#!/usr/bin/env python3
"""house.py: whether the repository is laid out as CONTRIBUTING.md says.

No proof file has more than 400 lines but for a reason given here, no folder of lemmas more than 15 files, no line of a
page more than 120 characters and none of src/ more than 130; no crate has more must-fail edits than it may; each
relative link of a page leads somewhere; each definition of docs/MODEL.md stands in the file that is named for it, and
each name of docs/PROMISES.md is one of the code or of a definition. Then it runs `limits.py`, `cases_stdout.py --check`
and `library_cases_stdout.py --check`, which stand beside it. The exit status is 1 where something is otherwise.
Python 3.11 or later."""
import pathlib
import re
import subprocess
import sys

HERE = pathlib.Path(__file__).resolve().parent
HOME = HERE.parent
CRATES = HOME / 'crates'
# Proof files of more than 400 lines, each with its reason.
LONG = {}
# The crates that may have other than six edits.
EDITS = {'closure_check': 7, 'top_call': 10, 'timbuk_cli': 10}
# Names in docs/PROMISES.md that are the kit's.
OF_KIT = {'AllocError', 'Printer', 'arrayvec', 'indexmap', 'smallvec'}


def files(folder, ending):
    """The files below a folder with this ending, but for those of `out/`."""
    return sorted(it for it in folder.rglob(f'*{ending}') if 'out' not in it.relative_to(folder).parts)


def pages():
    return [HOME / 'README.md', HOME / 'CONTRIBUTING.md', HOME / 'examples' / 'README.md', *files(HOME / 'docs', '.md')]


def is_lemmas(path):
    """Whether it is a file of lemmas: one that isn't named by a function's proof, and no list of modules."""
    if path.name in ('Lib.antt', 'Answers.antt', 'Invariants.antt'):
        return False
    lines = [line for line in path.read_text().splitlines() if line.strip() and not line.startswith('--')]
    return not all(re.match(r'(pub )?mod ', line) for line in lines)


def long_lines(path, most):
    for number, line in enumerate(path.read_text().splitlines(), 1):
        if len(line) > most:
            yield f'{path.relative_to(HOME)}:{number}: {len(line)} characters, and not {most} at most'


def proof_faults(crate):
    counts = {}
    for path in files(crate, '.antt'):
        parts = path.relative_to(crate).parts
        if parts[0] != 'proofs' and parts[:2] != ('specs', 'lemmas'):
            continue
        length = len(path.read_text().splitlines())
        name = str(path.relative_to(CRATES))
        if length > 400 and name not in LONG:
            yield f'{name}: {length} lines, and not 400 at most'
        if is_lemmas(path):
            counts[path.parent] = counts.get(path.parent, 0) + 1
    for folder, count in counts.items():
        if count > 15:
            yield f'{folder.relative_to(HOME)}: {count} files of lemmas, and not 15 at most'


def edit_fault(path):
    """What keeps an edit from being applied, if something does: each old text stands once in its file."""
    texts, name, old = {}, '', ''
    for line in path.read_text().splitlines():
        word, _, rest = line.partition(': ')
        if word == 'file':
            name = rest
            texts.setdefault(name, (path.parent.parent / name).read_text())
        elif word == 'old':
            old = rest
            if texts[name].count(old) != 1:
                return f'{path.relative_to(HOME)}: its old text stands {texts[name].count(old)} times in {name}'
        elif line.startswith('new:'):
            texts[name] = texts[name].replace(old, line[5:])
    return None


def crate_faults(crate):
    yield from proof_faults(crate)
    for path in files(crate, '.rt'):
        yield from long_lines(path, 130)
    edits, most = len(files(crate, '.edit')), EDITS.get(crate.name, 6)
    if edits > most:
        yield f'{crate.name}: {edits} edits, and not {most} at most'
    yield from filter(None, map(edit_fault, files(crate, '.edit')))


def page_faults(page):
    yield from long_lines(page, 120)
    for link in re.findall(r'\]\(([^)#:\s]+)(?:#[^)]*)?\)', page.read_text()):
        if not (page.parent / link).exists():
            yield f'{page.relative_to(HOME)}: there is no {link}'


def is_defined(name, texts):
    """Whether one of the texts defines it, in the prover's language or in the code's."""
    antt = rf'^\s*(abbrev )?(pub )?(record |data )?{re.escape(name)}\b'
    code = rf'\b(fn|struct|enum|trait|type|const|ensures|requires|ghost) {re.escape(name)}\b'
    return any(re.search(rf'{antt}|{code}', text, re.M) for text in texts)


def texts_of(crate, *names):
    """The texts of the crate's definitions, those of files with these names, and of its code."""
    specs = [it for it in files(crate / 'specs', '.antt') if not names or it.stem in names]
    return [it.read_text() for it in specs + files(crate / 'src', '.rt')]


def model_faults():
    """Each item of docs/MODEL.md begins with names and their file, with the crate where the part has several."""
    page = (HOME / 'docs' / 'MODEL.md').read_text().partition('## What was changed')[0]
    for part in re.split(r'^## ', page, flags=re.M)[1:]:
        of_part = re.findall(r'`(\w+)`', part.split('\n')[0])
        for item in re.findall(r'^- (.*?)(?=^- |^\n|\Z)', part, re.M | re.S):
            begins = re.match(r'((?:`[^`]+`,? ?)+)\(((?:`\w+`(?:, )?)+)\):', ' '.join(item.split()))
            if begins:
                names, where = (re.findall(r'`([^`]+)`', it) for it in begins.groups())
                crates = [it for it in where if (CRATES / it).is_dir()] or of_part
                stems = [it for it in where if it not in crates]
                texts = [text for it in crates for text in texts_of(CRATES / it, *stems)]
                yield from (f'docs/MODEL.md: {it} is not in {where}' for it in names if not is_defined(it, texts))


def promise_faults():
    """The names in docs/PROMISES.md that nothing defines: those of paths, as `laws::{one, other}`, and single ones."""
    crates = [it for it in CRATES.iterdir() if it.is_dir()]
    texts = [text for crate in crates for text in texts_of(crate)]
    known = OF_KIT | {crate.name for crate in crates} | {it.stem for crate in crates for it in files(crate, '')}
    for named in re.findall(r'`([\w:]+(?:::\{[\w,\s]+\})?)`', (HOME / 'docs' / 'PROMISES.md').read_text()):
        for name in re.findall(r'\w+', named):
            variant = rf'^\s+{name}\b[,( {{]'
            if name not in known and not is_defined(name, texts) and not any(re.search(variant, it, re.M) for it in texts):
                yield f'docs/PROMISES.md: nothing defines {name}'


def main():
    faults = [fault for crate in sorted(CRATES.iterdir()) if crate.is_dir() for fault in crate_faults(crate)]
    faults += [fault for page in pages() for fault in page_faults(page)]
    faults += [*model_faults(), *promise_faults()]
    print('\n'.join(faults + [f'layout: {len(faults)} faults']), flush=True)
    runs = [['limits.py'], ['cases_stdout.py', '--check'], ['library_cases_stdout.py', '--check']]
    failed = [run for run in runs if subprocess.run([sys.executable, HERE / run[0], *run[1:]], check=False).returncode]
    return 1 if faults or failed else 0


if __name__ == '__main__':
    sys.exit(main())
