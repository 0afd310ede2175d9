#!/usr/bin/env python3
"""Compares the program with the plain model of `reference.py` on many small random specifications.

    bench/random_specifications.py [--count N] [--seed S] [PROGRAM]

For each specification the verdict of `complete` has to be the model's. Where the program writes whole certificates, an
unreachable one has to be the model's to the byte, a derivation has to replay in as many steps as the least that the model
finds, a common term has to be one of least size, `check` has to accept what settles something, and where one byte of it is
changed, it has to answer and may accept only what the model accepts too. Specifications that are too large for the model
are passed over. PROGRAM is the built program; without it that of this repository is taken. The last line is
'N agree, M differ, K passed over', and the exit status is 1 where one differs.
"""

import argparse
import os
import random
import re
import subprocess
import sys
import tempfile

import reference
from reference import Automaton, Spec, TooLarge

HOME = os.path.dirname(os.path.dirname(os.path.abspath(__file__)))
DEFAULTS = {"rounds": 20, "steps": 5, "height": 4, "terms": 5000, "pairs": 100000, "states": 4096}
RANGES = {"rounds": (0, 4), "steps": (0, 4), "height": (1, 3), "terms": (1, 60), "pairs": (0, 6), "states": (1, 9)}
VARIABLES = ["x", "y", "z"]


class Chance:
    """What is random of a specification."""

    def __init__(self, seed):
        self.random = random.Random(seed)
        self.names = ["a", "b"][: self.below(2) + 1] + ["f", "g"][: self.below(3)] + ["c"][: self.below(2)]
        self.arities = [{"a": 0, "b": 0, "f": 1, "g": 1, "c": 2}[name] for name in self.names]

    def below(self, number):
        return self.random.randrange(number)

    def pattern(self, depth, leaves):
        """A pattern of at most this depth over these leaves and the constants."""
        symbols = [s for s, arity in enumerate(self.arities) if arity == 0 or depth > 1]
        leaf = ("v", self.random.choice(leaves)) if leaves else None
        if leaf and self.below(3) == 0:
            return leaf
        symbol = self.random.choice(symbols)
        return ("f", symbol, tuple(self.pattern(depth - 1, leaves) for _ in range(self.arities[symbol])))

    def linear(self, depth):
        """A pattern with an application at its root in which each variable stands once."""
        rest = list(range(len(VARIABLES)))

        def make(depth, may_be_variable):
            if rest and may_be_variable and self.below(2):
                return ("v", rest.pop(0))
            symbols = [s for s, arity in enumerate(self.arities) if arity == 0 or depth > 1]
            symbol = self.random.choice(symbols)
            return ("f", symbol, tuple(make(depth - 1, True) for _ in range(self.arities[symbol])))

        return make(depth, False)

    def automaton(self, most):
        count = self.below(most) + 1
        trans = []
        for _ in range(self.below(5) + 1):
            symbol = self.below(len(self.names))
            trans.append((symbol, tuple(self.below(count) for _ in range(self.arities[symbol])), self.below(count)))
        eps = [(self.below(count), self.below(count)) for _ in range(self.below(3) // 2)]
        return Automaton(count, range(count), [q for q in range(count) if self.below(2)], trans, eps)

    def shape(self, depth, states):
        kind = self.below(4)
        if kind == 0:
            return ("v", self.below(len(VARIABLES)))
        if kind == 1 or depth == 0:
            return ("q", self.below(states))
        symbol = self.below(len(self.names))
        return ("f", symbol, tuple(self.shape(depth - 1, states) for _ in range(self.arities[symbol])))

    def entries(self, states):
        found = []
        for _ in range(self.below(2) + 1):
            whole, target = self.shape(2, states), self.shape(0, states)
            for _ in range(self.below(2) + 1):
                symbol = self.below(len(self.names))
                node = ("f", symbol, tuple(self.shape(0, states) for _ in range(self.arities[symbol])))
                found.append((whole, target, node, self.below(states)))
        return found

    def spec(self):
        rules = []
        for _ in range(self.below(4)):
            left = self.linear(2 + self.below(2))
            rules.append((left, self.pattern(3, reference.variables(left))))
        equations = []
        if self.below(3) == 0:
            equations = [(self.pattern(2, [0, 1]), self.pattern(2, [0, 1])) for _ in range(self.below(2) + 1)]
        initial = self.automaton(3)
        approximated = self.below(4) == 0
        extra = self.below(2) if approximated else 0
        entries = self.entries(initial.next + extra) if approximated else []
        forbidden = self.automaton(2) if self.below(5) else Automaton(0)
        return Spec(self.arities, self.names, rules, equations, entries, extra, approximated, initial, forbidden)


def written(spec):
    """The text of a specification."""

    def pattern(it, states="q"):
        if it[0] == "v":
            return VARIABLES[it[1]]
        if it[0] == "q":
            return f"{states}{it[1]}"
        return spec.names[it[1]] + ("(" + ",".join(pattern(arg) for arg in it[2]) + ")" if it[2] else "")

    def automaton(name, it, prefix):
        lines = [f"Automaton {name}", "States " + " ".join(f"{prefix}{q}" for q in range(it.next))]
        lines += ["Final States " + " ".join(f"{prefix}{q}" for q in sorted(it.finals)), "Transitions"]
        for sym, args, to in it.trans:
            inner = "(" + ",".join(f"{prefix}{q}" for q in args) + ")" if args else ""
            lines.append(f"{spec.names[sym]}{inner} -> {prefix}{to}")
        return lines + [f"{prefix}{p} -> {prefix}{q}" for p, q in it.eps]

    lines = ["Ops " + " ".join(f"{name}:{arity}" for name, arity in zip(spec.names, spec.arities)), "Vars x y z", "TRS R"]
    lines += [f"{pattern(left)} -> {pattern(right)}" for left, right in spec.rules]
    if spec.equations:
        lines += ["Equations E", "Rules"] + [f"{pattern(left)} = {pattern(right)}" for left, right in spec.equations]
    lines += automaton("Initial", spec.initial, "q")
    if spec.approximated:
        lines += ["Approximation N", "States " + " ".join(f"q{spec.initial.next + i}" for i in range(spec.extra)), "Rules"]
        for whole, target, node, to in spec.entries:
            lines.append(f"[{pattern(whole)} -> {pattern(target)}] -> [{pattern(node)} -> q{to}]")
    if spec.forbidden.next:
        lines += automaton("Forbidden", spec.forbidden, "p")
    return "\n".join(lines) + "\n"


def term_of(text, spec):
    """The term of a printed text, or None."""
    tokens = re.findall(r"[(),]|[^(),]+", text)

    def read():
        name = tokens.pop(0)
        if name not in spec.names:
            raise ValueError
        args = []
        if tokens and tokens[0] == "(":
            while tokens.pop(0) in "(,":
                args.append(read())
        if len(args) != spec.arities[spec.names.index(name)]:
            raise ValueError
        return ("f", spec.names.index(name), tuple(args))

    try:
        term = read()
    except (ValueError, IndexError):
        return None
    return None if tokens else term


def derivation_of(lines, spec):
    """The start and the steps of the lines of a derivation."""
    start = term_of(lines[2].removeprefix("Start "), spec)
    steps = []
    for line in lines[3:-1]:
        _, number, at, text = line.split(" ")
        position = () if at == "e" else tuple(int(part) for part in at.split("."))
        steps.append((int(number), position, term_of(text, spec)))
    return start, steps


def automaton_of(lines, spec):
    """The automaton and the map of the lines of an unreachable certificate."""
    automaton, image = Automaton(0), []
    for line in lines[3:-1]:
        head, *rest = line.split(" ")
        if head == "Next":
            automaton.next = int(rest[0])
        elif head == "States":
            automaton.states = {int(q) for q in rest}
        elif head == "Finals":
            automaton.finals = {int(q) for q in rest}
        elif head == "Map":
            image = [int(q) for q in rest]
        elif head == "T":
            name, _, inner = rest[0].rstrip(")").partition("(")
            args = tuple(int(q) for q in inner.split(",")) if inner else ()
            automaton.trans.add((spec.names.index(name), args, int(rest[2])))
        elif head == "E":
            automaton.eps.add((int(rest[0]), int(rest[2])))
    return automaton, image


class Compared:
    """One specification, compared with the model."""

    def __init__(self, program, folder, seed):
        self.program = program
        self.folder = folder
        chance = Chance(seed)
        self.chance = chance.random
        self.spec = chance.spec()
        self.text = written(self.spec)
        self.options = dict(DEFAULTS)
        self.words = []

    def run(self, *words):
        done = subprocess.run([self.program, *words], cwd=self.folder, stdout=subprocess.PIPE, timeout=120)
        return done.stdout, done.returncode

    def write(self, name, data):
        with open(os.path.join(self.folder, name), "wb") as file:
            file.write(data)

    def with_options(self):
        for name, (least, most) in RANGES.items():
            if self.chance.randrange(2):
                self.options[name] = self.chance.randint(least, most)
                self.words.append(f"--{name}={self.options[name]}")

    def of_undecided(self, lines, ended, automaton, found):
        """What is wrong with the lines of an undecided answer."""
        kind, stage = ended
        reason = lines[2].split(" ")
        mark = f"Search {'exhausted' if found[0] == 'exhausted' else 'over'} {found[1]}"
        if reason[:3] != ["Reason", kind, str(stage)] or lines[3:] != [mark, "End"]:
            return f"{lines[2:]} and not {kind} {stage}, {mark}"
        if kind == "meets":
            least = reference.least_common(automaton, self.spec.forbidden)
            term = term_of(reason[3], self.spec)
            if reason[3] == "large":
                return None if least > reference.MOST_SYMBOLS else "a witness is written as large"
            if not (automaton.accepts(term) and self.spec.forbidden.accepts(term) and reference.size(term) == least):
                return f"{reason[3]} is no common term of least size"
        return None

    def of_check(self, out):
        """What is wrong with what `check` says of the text and of the text with a byte changed."""
        self.write("cert", out)
        said, status = self.run("check", "spec", "cert")
        if status != 0:
            return f"check answers {said} {status} for the certificate"
        changed = bytearray(out)
        place = self.chance.randrange(len(changed))
        changed[place] = self.chance.choice(b"0123456789 (),->abfgc\n")
        self.write("cert", bytes(changed))
        said, status = self.run("check", "spec", "cert")
        if status not in (0, 3, 66):
            return f"check answers {said} {status} for a changed certificate"
        if status == 66:
            return None
        lines = bytes(changed).decode().split("\n")[:-1]
        if lines[1] == "Verdict unreachable":
            holds = reference.is_accepted(self.spec, *automaton_of(lines, self.spec))
        else:
            holds = reference.replays(self.spec, *derivation_of(lines, self.spec))
        return None if holds == (status == 0) else f"check answers {said} for a changed certificate, the model says {holds}"

    def differs(self, has_merging, has_search):
        """What is wrong, or None."""
        self.write("spec", self.text.encode())
        is_whole = has_search is None
        if is_whole:
            self.with_options()
        found = reference.search(self.spec, self.options) if has_search is not False else ("exhausted", 0)
        options = dict(self.options)
        if self.spec.equations and not has_merging:
            options["rounds"] = 0
        ended, automaton, image = (None, None, None) if found[0] == "found" else reference.stages(self.spec, options)
        verdict = "reachable" if found[0] == "found" else "unreachable" if ended[0] == "closed" else "undecided"
        out, status = self.run("complete", "spec", *self.words)
        lines = out.decode().split("\n")[:-1]
        if status != ["unreachable", "reachable", "undecided"].index(verdict):
            return f"{lines} {status} and not {verdict}"
        if not is_whole:
            return None if lines == [f"Verdict {verdict}"] else f"{lines} and not {verdict}"
        if verdict == "undecided":
            return self.of_undecided(lines, ended, automaton, found)
        if verdict == "unreachable" and out.decode() != reference.unreachable_text(self.spec, ended[1], automaton, image):
            return f"{lines} and not {reference.unreachable_text(self.spec, ended[1], automaton, image)}"
        if verdict == "reachable":
            start, steps = derivation_of(lines, self.spec)
            if len(steps) != found[1] or not reference.replays(self.spec, start, steps):
                return f"{lines} is no derivation of {found[1]} steps"
        return self.of_check(out)


def main():
    parser = argparse.ArgumentParser(description="Compares the program with a plain model on random specifications.")
    parser.add_argument("program", nargs="?", default=os.path.join(HOME, "crates/timbuk_cli/out/timbuk_cli"))
    parser.add_argument("--count", type=int, default=1000)
    parser.add_argument("--seed", type=int, default=0)
    parser.add_argument("--verdict-line", choices=["rounds", "merging", "search"], help="for a program that writes the verdict alone")
    given = parser.parse_args()
    has_merging = given.verdict_line != "rounds"
    has_search = None if given.verdict_line is None else given.verdict_line == "search"
    agree = differ = passed_over = 0
    with tempfile.TemporaryDirectory() as folder:
        for seed in range(given.seed, given.seed + given.count):
            compared = Compared(os.path.abspath(given.program), folder, seed)
            try:
                wrong = compared.differs(has_merging, has_search)
            except TooLarge:
                passed_over += 1
                continue
            if wrong is None:
                agree += 1
            else:
                differ += 1
                print(f"seed {seed}: {' '.join(compared.words)}\n{compared.text}{wrong}\n")
    print(f"{agree} agree, {differ} differ, {passed_over} passed over")
    sys.exit(1 if differ else 0)


if __name__ == "__main__":
    main()
