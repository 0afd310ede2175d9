#!/usr/bin/env python3
"""Runs the commands that pages show, and compares what they write with what the pages say.

    bench/guide.py [--write] [PROGRAM]

A command stands in a block of a page, on a line that begins with `$`, with the lines of its text up to `END` where it has
one; what it writes to standard output stands below it, up to the next command or the end of the block. The commands of a
page are run one after the other, from its first to its last, in an empty folder that has `examples` and `./timbuk`.
PROGRAM is what is run as `./timbuk`; without it that is the script of this repository.

With --write, what the commands have written is put into the pages, to be read there. The exit status is 1 where something
is otherwise than a page says, or was written.
"""

import argparse
import os
import shutil
import subprocess
import sys
import tempfile

HOME = os.path.dirname(os.path.dirname(os.path.abspath(__file__)))
PAGES = ["README.md", os.path.join("docs", "GUIDE.md"), os.path.join("docs", "TIMBUK_USERS.md")]
FENCE = "```"


def blocks(lines):
    """Where blocks begin and end: the places of their first line, and of the line behind their last one."""
    fences = [place for place, line in enumerate(lines) if line.startswith(FENCE)]
    return [(first + 1, last) for first, last in zip(fences[::2], fences[1::2])]


def commands(lines):
    """The commands of a page: the text of each, and the places where what it writes begins and ends."""
    for first, last in blocks(lines):
        starts = [place for place in range(first, last) if lines[place].startswith("$ ")]
        for start, behind in zip(starts, starts[1:] + [last]):
            text, begins = lines[start][2:], start + 1
            if "<< 'END'" in text:
                begins = lines.index("END", start) + 1
                text = "\n".join([text, *lines[start + 1 : begins]])
            yield text, begins, behind


def prepared(folder, program):
    """Puts the examples and the program into a folder."""
    shutil.copytree(os.path.join(HOME, "examples"), os.path.join(folder, "examples"))
    script = os.path.join(folder, "timbuk")
    with open(script, "w", encoding="utf-8") as file:
        file.write(f"#!/bin/sh\nexec '{program}' \"$@\"\n")
    os.chmod(script, 0o755)


def run(folder, text, status):
    """What a command writes, as lines, and its exit status. The status of the command before it stands in `$?`."""
    ran = subprocess.run(["sh", "-c", f"(exit {status})\n{text}\n"], cwd=folder, stdout=subprocess.PIPE, check=False)
    lines = ran.stdout.decode(errors="replace").split("\n")
    return lines[:-1] if lines[-1] == "" else lines, ran.returncode


def compared(page, program, is_written):
    """How many commands a page has, and of how many something else was written."""
    path = os.path.join(HOME, page)
    with open(path, encoding="utf-8") as file:
        lines = file.read().split("\n")
    found, status, changes = 0, 0, []
    with tempfile.TemporaryDirectory() as folder:
        prepared(folder, program)
        for text, begins, behind in commands(lines):
            found += 1
            written, status = run(folder, text, status)
            if written != lines[begins:behind]:
                changes.append((begins, behind, written))
                shown = "\n".join(lines[begins:behind])
                print(f"{page}:{begins}: {text.splitlines()[0]}\nshown:\n{shown}\nwritten:\n" + "\n".join(written) + "\n", flush=True)
    if is_written:
        for begins, behind, written in reversed(changes):
            lines[begins:behind] = written
        with open(path, "w", encoding="utf-8") as file:
            file.write("\n".join(lines))
    return found, len(changes)


def main():
    parser = argparse.ArgumentParser(description="Runs the commands that pages show.")
    parser.add_argument("program", nargs="?", default=os.path.join(HOME, "timbuk"))
    parser.add_argument("--write", action="store_true")
    given = parser.parse_args()
    found = otherwise = 0
    for page in PAGES:
        if os.path.exists(os.path.join(HOME, page)):
            counts = compared(page, os.path.abspath(given.program), given.write)
            found, otherwise = found + counts[0], otherwise + counts[1]
    print(f"{found} commands, {otherwise} otherwise than shown")
    return 1 if otherwise or not found else 0


if __name__ == "__main__":
    sys.exit(main())
