#!/usr/bin/env python3
"""Prints which functions and lemma files of a crate take most of its proof.

    bench/proof_profile.py FOLDER [COUNT]

FOLDER has what one check from nothing with one process has kept: `rattle check .. --jobs 1 --incremental FOLDER`, with the
other words as `ps` shows them while `rt check` runs. The checked files are written one after the other, so the seconds
between two of them are those of the later one. Files of one function count together."""

import collections
import os
import re
import sys

# The last parts of the names of a function's files, be they made or written by hand.
PARTS = ['Lts', 'Proof', 'Code', 'Statement', 'Goals', 'Given', 'Answers', 'Tie', 'Met', 'Kinds', 'Invariants']


def files(folder):
    """The times at which the files were written, with their names, in this order."""
    found = []
    for place, _, names in os.walk(folder):
        found += [(os.stat(os.path.join(place, name)).st_mtime, name) for name in names]
    return sorted(found)


def owner(name):
    """The function of a file, or the file itself."""
    module, _, last = re.sub(r'(\.decls)?\.oantt$', '', name).rpartition('.')
    return module if last.split('-')[0] in PARTS else f'{module}.{last}'


def main():
    if len(sys.argv) < 2:
        sys.exit(__doc__)
    folder, *count = sys.argv[1:]
    written = files(folder)
    taken = collections.Counter()
    for (before, _), (now, name) in zip(written, written[1:]):
        taken[owner(name)] += now - before
    print(f'{sum(taken.values()):8.1f} in all')
    for name, seconds in taken.most_common(int(count[0]) if count else 30):
        print(f'{seconds:8.1f} {name}')


main()
