#!/usr/bin/env python3
"""Measures how the time of `timbuk check` grows with the certificate.

    bench/certificates.py [PROGRAM]

Prints, for certificates of 1, 4 and 16 MiB, the processor seconds, the nanoseconds for each byte, and how this has grown
from the size before: near 1 is linear. PROGRAM is the built program; without it that of this repository is taken.

Families, in which the number of states is the largest there may be:
  trans     all but a few lines are transitions of a symbol with two arguments
  eps       all but a few lines are epsilon transitions
  late      transitions, and the last of them stands twice: a fault at the end
"""

import os
import subprocess
import sys
import tempfile

HOME = os.path.dirname(os.path.dirname(os.path.abspath(__file__)))
RUNS = 3
STATES = 16384
CHECKED = "Ops a:0 b:0 f:2\nTRS R\nAutomaton A\nStates q\nFinal States q\nTransitions\na -> q\n"
CHECKED += "Automaton B\nStates p\nFinal States p\nTransitions\nb -> p\n"


def certificate(line, size):
    """A certificate of about so many bytes: the lines for the numbers 0, 1, .. stand in it, until there are enough bytes."""
    numbers = " ".join(str(i) for i in range(STATES))
    head = "Timbuk certificate 1\nVerdict unreachable\nNote rounds 0\nNext 16384\n"
    parts = [head + f"States {numbers}\nFinals 0\nMap 0\nT a -> 0\n"]
    length = len(parts[0])
    while length < size:
        parts.append(line(len(parts) - 1))
        length += len(parts[-1])
    return parts + ["End\n"]


def trans_line(number):
    return f"T f({number // 256},{number % 256 * 64}) -> {number * 7919 % STATES}\n"


def eps_line(number):
    return f"E {number // 1024} -> {number % 1024 + (number % 1024 >= number // 1024)}\n"


def trans(size):
    return "".join(certificate(trans_line, size))


def eps(size):
    return "".join(certificate(eps_line, size))


def late(size):
    parts = certificate(trans_line, size)
    return "".join(parts[:-1] + parts[-2:])


CERTIFICATES = [trans, eps, late]
SIZES = [1, 4, 16]


def seconds(program, text):
    """The shortest time of some runs, and the answer."""
    best = float("inf")
    with tempfile.TemporaryDirectory() as folder:
        for name, content in [("S", CHECKED), ("F", text)]:
            with open(os.path.join(folder, name), "w", encoding="ascii") as file:
                file.write(content)
        for _ in range(RUNS):
            with subprocess.Popen([program, "check", "S", "F"], cwd=folder, stdout=subprocess.PIPE) as run:
                answer = run.stdout.read().decode().strip()
                _, status, used = os.wait4(run.pid, 0)
                run.returncode = os.WEXITSTATUS(status)
            best = min(best, used.ru_utime + used.ru_stime)
    return best, answer


def main():
    program = os.path.abspath(sys.argv[1]) if len(sys.argv) > 1 else os.path.join(HOME, "crates/timbuk_cli/out/timbuk_cli")
    print(f"{'family':8} {'MiB':>4} {'bytes':>9} {'seconds':>8} {'ns/byte':>8} {'ratio':>6}  answer")
    for family in CERTIFICATES:
        before = None
        for size in SIZES:
            text = family(size * 1048576)
            took, answer = seconds(program, text)
            each = took / len(text) * 1e9
            ratio = f"{each / before:.2f}" if before else ""
            print(f"{family.__name__:8} {size:4} {len(text):9} {took:8.3f} {each:8.1f} {ratio:>6}  {answer}")
            before = each


if __name__ == "__main__":
    main()
