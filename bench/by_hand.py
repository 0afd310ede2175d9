#!/usr/bin/env python3
"""Tries the edits in crates/NAME/by-hand/, which the gate leaves out to stay short: the prover has to refuse each of them.

    bench/by_hand.py [NAME ..]      without names, of each crate that has such a folder

They are as those in must-fail/: all of `timbuk_reader`, since its proof is long and would be done once more for them, and of
other crates those that tell least beside the others. The repository is copied, and in the copy they are put into must-fail/
and tried by `rt must-fail`, which proves the crate and those below it first.
"""

import os
import shutil
import subprocess
import sys
import tempfile

HOME = os.path.dirname(os.path.dirname(os.path.abspath(__file__)))


def with_edits():
    crates = os.path.join(HOME, "crates")
    return [name for name in sorted(os.listdir(crates)) if os.path.isdir(os.path.join(crates, name, "by-hand"))]


def main():
    names = sys.argv[1:] or with_edits()
    unknown = [name for name in names if name not in with_edits()]
    if unknown:
        return f"no folder by-hand/ in {' '.join(unknown)}\n{__doc__}"
    with tempfile.TemporaryDirectory(prefix="by-hand-") as room:
        skipped = shutil.ignore_patterns(".git", "out")
        top = shutil.copytree(HOME, os.path.join(room, "copy"), ignore=skipped, symlinks=True)
        for name in names:
            os.rename(os.path.join(top, "crates", name, "by-hand"), os.path.join(top, "crates", name, "must-fail"))
        return subprocess.run(["rt", "must-fail", *names], cwd=top, check=False).returncode


if __name__ == "__main__":
    sys.exit(main())
