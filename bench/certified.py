#!/usr/bin/env python3
"""Measures `timbuk complete` on hard specifications, and `timbuk check` on the certificates that it writes.

    bench/certified.py [PROGRAM]

Prints, for each specification, the processor seconds of `complete`, by how many times they have grown where the count has
doubled, its verdict, the bytes that it has written, and, where they are a certificate, the processor seconds of `check` and
how they have grown. PROGRAM is the built program; without it that of this repository is taken.

Families:
  chain     so many rules c0 -> c1, c1 -> c2, ..: a state a round, and an epsilon transition to each one before it
  growing   g(x) -> g(s(x)), for so many rounds
  dense     one rule s(f(x,y)) -> f(s(x),s(y)) over so many states, and half as many transitions of f
  laws      commutativity and associativity of a symbol over so many states, for 3 rounds
"""

import os
import random
import subprocess
import sys
import tempfile

import growth

HOME = os.path.dirname(os.path.dirname(os.path.abspath(__file__)))
RUNS = 3


def chain(count):
    """The options, and the text."""
    names = [f"c{i}" for i in range(count + 1)]
    rules = "\n".join(f"{one} -> {other}" for one, other in zip(names, names[1:]))
    head = "Ops no:0 " + " ".join(f"{name}:0" for name in names) + f"\nTRS R\n{rules}\n"
    first = "Automaton A\nStates q\nFinal States q\nTransitions\nc0 -> q\n"
    return ["--steps=0", f"--rounds={count}"], head + first + "Automaton B\nStates p\nFinal States p\nTransitions\nno -> p\n"


def growing(count):
    text = "Ops no:0 a:0 s:1 g:1\nVars x\nTRS R\ng(x) -> g(s(x))\nAutomaton A\nStates q0 q1\nFinal States q1\nTransitions\n"
    text += "a -> q0\ng(q0) -> q1\nAutomaton B\nStates p\nFinal States p\nTransitions\nno -> p\n"
    return ["--steps=0", f"--rounds={count}"], text


def dense(count):
    return ["--steps=0"], growth.dense(count, random.Random(count))


def laws(count):
    rules = "f(x,y) -> f(y,x)\nf(f(x,y),z) -> f(x,f(y,z))"
    states = " ".join(f"q{i}" for i in range(count))
    chance = random.Random(count)
    transitions = [f"a{i} -> q{i}" for i in range(count)]
    transitions += [f"f(q{chance.randrange(count)},q{chance.randrange(count)}) -> q{i}" for i in range(count)]
    symbols = " ".join(f"a{i}:0" for i in range(count))
    text = f"Ops no:0 f:2 {symbols}\nVars x y z\nTRS R\n{rules}\nAutomaton A\nStates {states}\nFinal States q0\nTransitions\n"
    text += "\n".join(transitions) + "\nAutomaton B\nStates p\nFinal States p\nTransitions\nno -> p\n"
    return ["--steps=0", "--rounds=3", "--states=16384", "--pairs=1000000"], text


FAMILIES = [(chain, [75, 150, 300]), (growing, [75, 150, 300]), (dense, [500, 1000, 2000]), (laws, [10, 20, 40])]


def measured(folder, words):
    """The shortest time of some runs, and what is written."""
    best, out = float("inf"), b""
    for _ in range(RUNS):
        with subprocess.Popen(words, cwd=folder, stdout=subprocess.PIPE) as run:
            out = run.stdout.read()
            _, status, used = os.wait4(run.pid, 0)
            run.returncode = os.WEXITSTATUS(status)
        best = min(best, used.ru_utime + used.ru_stime)
    return best, out


def line(program, folder, family, count, before):
    """Prints one line, and returns the two times."""
    options, text = family(count)
    with open(os.path.join(folder, "F"), "w", encoding="ascii") as file:
        file.write(text)
    took, out = measured(folder, [program, "complete", "F", *options])
    grown = f"{took / before[0]:.1f}" if before else ""
    lines = out.decode().split("\n")
    verdict = lines[1].removeprefix("Verdict ") if len(lines) > 1 else out.decode()
    reason = lines[2].removeprefix("Reason ") if verdict == "undecided" else ""
    print(f"{family.__name__:8} {count:5} {took:8.3f} {grown:>6}  {verdict} {reason}, {len(out)} bytes", end="")
    checked = None
    if verdict in ("unreachable", "reachable"):
        with open(os.path.join(folder, "C"), "wb") as file:
            file.write(out)
        checked, said = measured(folder, [program, "check", "F", "C"])
        grown = f" {checked / before[1]:.1f}" if before and before[1] else ""
        print(f"; {said.decode().strip()} {checked:.3f}{grown}", end="")
    print(flush=True)
    return took, checked


def main():
    program = os.path.abspath(sys.argv[1]) if len(sys.argv) > 1 else os.path.join(HOME, "crates/timbuk_cli/out/timbuk_cli")
    print(f"{'family':8} {'count':>5} {'seconds':>8} {'times':>6}")
    with tempfile.TemporaryDirectory() as folder:
        for family, sizes in FAMILIES:
            before = None
            for count in sizes:
                before = line(program, folder, family, count, before)


if __name__ == "__main__":
    main()
