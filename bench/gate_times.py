#!/usr/bin/env python3
"""Measures what the gate takes, crate by crate, and prints the table of docs/TIMES.md.

    bench/gate_times.py                 runs `rt ci --anew`, so everything from nothing, in a copy, and prints its table
    bench/gate_times.py --watch FILE    watches each `rt ci` that runs on this machine, also `rt ci NAME ..`, and keeps in
                                        FILE what it has seen so far, until it is stopped
    bench/gate_times.py --table FILE    prints the table of such a file

`rt ci` says nothing of times, so its processes are looked at every second: those of the prover say which crate they are at,
and whether they prove the crate, its tests, or one of its must-fail edits. Times are processor minutes, the user's and the
system's, so what else runs on the machine makes little difference. What a process takes in its last second is lost, and
what `rt ci` does besides isn't counted: two compilers build the programs and the tests, and these are run, which takes
seconds. Where a crate was proved more than once, its last proof counts. A crate that `rt ci` has kept from an earlier run
isn't proved, so it isn't in the table. Linux alone has what is looked at.
"""

import json
import os
import shutil
import subprocess
import sys
import tempfile
import time

HOME = os.path.dirname(os.path.dirname(os.path.abspath(__file__)))
KINDS = ["proof", "tests", "edits"]
TICKS = os.sysconf("SC_CLK_TCK")


def processes():
    """All processes: their words, their parents, and the seconds that each has taken with its children that have ended."""
    found = {}
    for name in os.listdir("/proc"):
        if name.isdigit():
            try:
                with open(f"/proc/{name}/cmdline", "rb") as file:
                    words = file.read().decode(errors="replace").split("\0")
                with open(f"/proc/{name}/stat", encoding="utf-8", errors="replace") as file:
                    fields = file.read().rpartition(")")[2].split()
            except OSError:
                continue
            taken = sum(map(int, fields[11:15])) / TICKS
            found[int(name)] = words, int(fields[1]), taken, int(fields[19])
    return found


def is_gate(words):
    at = next((i for i, word in enumerate(words) if os.path.basename(word) == "rt"), None)
    return at is not None and words[at + 1 : at + 2] == ["ci"]


def is_prover(words):
    return os.path.basename(words[0]) == "rattle" and "--crate-name" in words


def kind_of(words):
    after = words[words.index("--incremental") + 1] if "--incremental" in words else ""
    if "rt-edits-" in after:
        return "edits"
    return "tests" if "--test" in words else "proof"


def look(seen):
    """Adds to what was seen of each prover that a gate has started; its own children count with it."""
    now = processes()
    children = {}
    for pid, (_, parent, _, _) in now.items():
        children.setdefault(parent, []).append(pid)

    def whole(pid):
        return now[pid][2] + sum(map(whole, children.get(pid, [])))

    gates = [pid for pid, (words, _, _, _) in now.items() if is_gate(words)]
    for gate in gates:
        for pid in children.get(gate, []):
            words, _, _, start = now[pid]
            if is_prover(words):
                crate = words[words.index("--crate-name") + 1]
                run = seen.setdefault(f"{crate} {kind_of(words)}", {}).setdefault(f"{now[gate][3]} {gate}", {})
                run[f"{start} {pid}"] = whole(pid)
    return gates


def last_of(runs):
    """The seconds of the last run, and how many provers it started."""
    if not runs:
        return 0.0, 0
    last = runs[max(runs, key=lambda it: int(it.split()[0]))]
    return sum(last.values()), len(last)


def crates():
    with open(os.path.join(HOME, "crates.txt"), encoding="utf-8") as file:
        return [line.split(":")[0] for line in file if ":" in line and not line.startswith("#")]


def edits_in(name):
    folder = os.path.join(HOME, "crates", name, "must-fail")
    return sum(it.endswith(".edit") for it in os.listdir(folder)) if os.path.isdir(folder) else 0


def minutes(seconds):
    return f"{seconds / 60:.1f}" if seconds else "-"


def print_table(seen):
    sums = [0.0] * len(KINDS)
    print("| crate | proof | tests | edits | in all |\n|---|---|---|---|---|")
    for name in crates():
        times = [last_of(seen.get(f"{name} {kind}"))[0] for kind in KINDS]
        if any(times):
            sums = [a + b for a, b in zip(sums, times)]
            cells = [minutes(times[0]), minutes(times[1]), f"{minutes(times[2])} ({edits_in(name)})" if times[2] else "-"]
            print(f"| `{name}` | {' | '.join(cells)} | {minutes(sum(times))} |")
    print(f"| in all | {' | '.join(map(minutes, sums))} | {minutes(sum(sums))} |")


def watch(path):
    seen = {}
    if os.path.exists(path):
        with open(path, encoding="utf-8") as file:
            seen = json.load(file)
    while True:
        if look(seen):
            with open(path + ".new", "w", encoding="utf-8") as file:
                json.dump(seen, file)
            os.replace(path + ".new", path)
        time.sleep(1)


def whole_gate():
    with tempfile.TemporaryDirectory(prefix="gate-times-") as room:
        top = shutil.copytree(HOME, os.path.join(room, "copy"), ignore=shutil.ignore_patterns(".git", "out"), symlinks=True)
        start, seen = time.monotonic(), {}
        with open(os.path.join(room, "log"), "w+", encoding="utf-8", errors="replace") as log:
            gate = subprocess.Popen(["rt", "ci", "--anew"], cwd=top, stdin=subprocess.DEVNULL, stdout=log, stderr=log)
            while gate.poll() is None:
                look(seen)
                time.sleep(1)
            log.seek(0)
            last = log.read().splitlines()[-1:]
        print_table(seen)
        took = (time.monotonic() - start) / 60
        print(f"{os.cpu_count()} processors, {took:.0f} minutes by the clock: {' '.join(last)}")
        return gate.returncode


def main():
    words = sys.argv[1:]
    if not words:
        return whole_gate()
    if len(words) == 2 and words[0] == "--watch":
        return watch(words[1])
    if len(words) == 2 and words[0] == "--table":
        with open(words[1], encoding="utf-8") as file:
            print_table(json.load(file))
        return 0
    return __doc__.strip()


if __name__ == "__main__":
    sys.exit(main())
