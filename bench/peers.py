#!/usr/bin/env python3
"""Asks another tool, Maude, for derivations of the examples, and compares what it finds and how long it takes.

    bench/peers.py [PROGRAM]

Each example of examples/README.md is written as a system module of Maude, with its rules as they stand. `begin` rewrites to
each start, that is to each term of the initial automaton of at most the height of the search; `search` looks for a term
that the forbidden automaton accepts, which is said by an equation for each state and each symbol, within the number of
steps that the example has (`--steps`). Where the program answers `reachable`, Maude has to find such a term in as many
steps; else it has to find none. PROGRAM is the built program; without it that of this repository is taken.

Times are those of the processor, of both from their start to their end, so with reading; Maude's have the reading of its
own prelude too, which the last line says. The exit status is 1 where one differs; it is 0 where Maude isn't installed.
"""

import os
import re
import shutil
import subprocess
import sys
import tempfile

import reference
from random_specifications import DEFAULTS
from spec_reader import Specification

HERE = os.path.dirname(os.path.abspath(__file__))
HOME = os.path.dirname(HERE)
EXAMPLES = os.path.join(HOME, "examples")
# - [NAME](NAME) with `options`: `line of the verdict`, exit status.
ENTRY = re.compile(r"^- \[([\w.]+)\]\(\1\)(?: with `([^`]*)`)?: `Verdict (\w+)`, \d+\.$", re.M)


def written(term):
    """A term or a pattern in Maude: symbols and variables by their numbers."""
    if term[0] == "v":
        return f"X{term[1]}"
    return f"f{term[1]}" + ("(" + ", ".join(written(arg) for arg in term[2]) + ")" if term[2] else "")


def signature(arities):
    yield "sort Term ."
    yield "op begin : -> Term ."
    for symbol, arity in enumerate(arities):
        yield f"op f{symbol} : {'Term ' * arity}-> Term ."


def runs(automaton, arities):
    """For each state q of an automaton an operation `in-q`, which says whether a term runs to q."""
    ends = {q: automaton.closed({q}) for q in automaton.states}
    for q in sorted(automaton.states):
        yield f"op in-{q} : Term -> Bool [memo] ."
        yield f"eq in-{q}(begin) = false ."
        for symbol, arity in enumerate(arities):
            names = [f"Y{place}" for place in range(arity)]
            term = f"f{symbol}" + (f"({', '.join(names)})" if names else "")
            ways = []
            for other, args, to in sorted(automaton.trans):
                if other == symbol and q in ends[to]:
                    ways.append(" and-then ".join(f"in-{p}({name})" for p, name in zip(args, names)) or "true")
            yield f"eq in-{q}({term}) = {' or-else '.join(f'({way})' for way in ways) or 'false'} ."


def module(spec, starts, steps):
    """The module, and the command that searches it."""
    variables = {v for left, _ in spec.rules for v in reference.variables(left)}
    lines = ["set show advisories off .", "mod EXAMPLE is", "protecting EXT-BOOL .", *signature(spec.arities)]
    lines += [f"var X{v} : Term ." for v in sorted(variables)]
    lines += [f"var Y{place} : Term ." for place in range(max(spec.arities, default=0))] + ["var T : Term ."]
    lines += [f"rl begin => {written(term)} ." for term in sorted(starts)]
    lines += [f"rl {written(left)} => {written(right)} ." for left, right in spec.rules]
    lines += runs(spec.forbidden, spec.arities)
    finals = " or-else ".join(f"in-{q}(T)" for q in sorted(spec.forbidden.finals)) or "false"
    lines += ["op bad : Term -> Bool .", f"eq bad(T) = {finals} .", "endm"]
    return "\n".join(lines + [f"search [1, {steps + 1}] begin =>* T such that bad(T) .", "show path labels 0 .", "quit"]) + "\n"


def timed(words, folder):
    """What is written, and the processor seconds."""
    with subprocess.Popen(words, cwd=folder, stdout=subprocess.PIPE, stderr=subprocess.DEVNULL, stdin=subprocess.DEVNULL) as run:
        text = run.stdout.read().decode(errors="replace")
        _, status, used = os.wait4(run.pid, 0)
        run.returncode = os.WEXITSTATUS(status)
    return text, used.ru_utime + used.ru_stime


def of_program(text):
    """The number of steps of a derivation that the program has written; None where there is none."""
    lines = text.split("\n")
    return sum(line.startswith("Step ") for line in lines) if lines[1:2] == ["Verdict reachable"] else None


def of_maude(maude, text, folder):
    """The number of steps of what Maude has found, or None; and its seconds."""
    path = os.path.join(folder, "example.maude")
    with open(path, "w", encoding="ascii") as file:
        file.write(text)
    answer, took = timed([maude, "-no-banner", "-no-wrap", path], folder)
    found = re.search(r"^Solution 1 \(state (\d+)\)", answer, re.M)
    if not found and "No solution." not in answer:
        raise RuntimeError(answer)
    if not found:
        return None, took
    with open(path, "w", encoding="ascii") as file:
        file.write(text.replace("labels 0", found.group(1)))
    path_text, _ = timed([maude, "-no-banner", "-no-wrap", path], folder)
    return path_text.count("===[") - 1, took


def starts_of(spec, options):
    low = reference.low_terms(spec.initial, options["height"], options["terms"])
    return None if low is None else set().union(*(low[q] for q in spec.initial.finals), set())


def main():
    maude = shutil.which("maude")
    if maude is None:
        print("Maude isn't installed (no command maude on the path): nothing is compared")
        return 0
    program = sys.argv[1] if len(sys.argv) > 1 else os.path.join(HOME, "crates/timbuk_cli/out/timbuk_cli")
    program = os.path.abspath(program)
    with open(os.path.join(EXAMPLES, "README.md"), encoding="utf-8") as file:
        entries = ENTRY.findall(file.read())
    differ = 0
    print(f"{'example':28} {'verdict':12} {'steps':>5} {'Maude':>5} {'seconds':>8} {'of Maude':>8}")
    with tempfile.TemporaryDirectory() as folder:
        with open(os.path.join(folder, "empty.maude"), "w", encoding="ascii") as file:
            file.write("quit\n")
        _, prelude = timed([maude, "-no-banner", "empty.maude"], folder)
        for name, words, verdict in entries:
            with open(os.path.join(EXAMPLES, name), encoding="utf-8") as file:
                spec = Specification(file.read()).model()
            options = dict(DEFAULTS)
            options.update((it.lstrip("-"), int(number)) for it, number in zip(words.split()[::2], words.split()[1::2]))
            starts = starts_of(spec, options)
            if starts is None:
                print(f"{name:28} {verdict:12} too many starts")
                continue
            text, took = timed([program, "complete", name, *words.split()], EXAMPLES)
            steps = of_program(text)
            found, other = of_maude(maude, module(spec, starts, options["steps"]), folder)
            shown = ["none" if it is None else it for it in (steps, found)]
            is_other = steps != found or (steps is not None) != (verdict == "reachable")
            differ += is_other
            mark = "  DIFFERS" if is_other else ""
            print(f"{name:28} {verdict:12} {shown[0]:>5} {shown[1]:>5} {took:8.3f} {other:8.3f}{mark}", flush=True)
    print(f"{len(entries)} examples, {differ} differ; Maude's prelude alone takes {prelude:.3f} seconds")
    return 1 if differ or not entries else 0


if __name__ == "__main__":
    sys.exit(main())
