#!/usr/bin/env python3
"""What the plain model of `reference.py` answers to a specification, as the text that `timbuk complete` writes.

    bench/model_answers.py FILE [--rounds N] [--steps N] [--height N] [--terms N] [--pairs N] [--states N]

Which derivation of the least number of steps is written, and which common term of least size, is free: the model's choice
may be another one than the program's. It is for small specifications alone.
"""

import argparse

import reference
from random_specifications import DEFAULTS
from spec_reader import Specification


def derivation(spec, options):
    """A forbidden term that the search finds, with where it starts and the steps."""
    low = reference.low_terms(spec.initial, options["height"], options["terms"])
    level = [(term, term, ()) for term in sorted(set().union(*(low[q] for q in spec.initial.finals), set()))]
    known = {term for term, _, _ in level}
    while True:
        for term, start, steps in level:
            if spec.forbidden.accepts(term):
                return start, steps
        following = []
        for term, start, steps in level:
            for number, at, other in sorted(reference.steps_from(term, spec.rules), key=lambda step: step[:2]):
                if other not in known:
                    known.add(other)
                    following.append((other, start, steps + ((number, at, other),)))
        level = following


def common_term(a, b):
    """A common term of least size."""
    best = reference.least_sizes(a, b)
    terms = {}

    def offer(pair, number, term):
        if best.get(pair) == number and pair not in terms:
            terms[pair] = term
            return True
        return False

    changed = True
    while changed:
        changed = False
        for sym, args, to in sorted(a.trans):
            for other, places, target in sorted(b.trans):
                pairs = list(zip(args, places))
                if sym == other and all(pair in terms for pair in pairs):
                    size = 1 + sum(best[pair] for pair in pairs)
                    changed |= offer((to, target), size, ("f", sym, tuple(terms[pair] for pair in pairs)))
        for (p, q), term in list(terms.items()):
            for source, target in a.eps:
                changed |= source == p and offer((target, q), best[p, q], term)
            for source, target in b.eps:
                changed |= source == q and offer((p, target), best[p, q], term)
    least = reference.least_common(a, b)
    return next(terms[pair] for pair in sorted(terms) if best[pair] == least and pair[0] in a.finals and pair[1] in b.finals)


def answer(spec, options):
    """The text and the exit status."""
    head = "Timbuk certificate 1\nVerdict "
    found = reference.search(spec, options)
    if found[0] == "found":
        start, steps = derivation(spec, options)
        lines = [f"Start {reference.term_text(start, spec)}"]
        for number, at, term in steps:
            lines.append(f"Step {number} {'.'.join(map(str, at)) or 'e'} {reference.term_text(term, spec)}")
        return head + "reachable\n" + "\n".join(lines) + "\nEnd\n", 1
    (kind, stage), automaton, image = reference.stages(spec, options)
    if kind == "closed":
        return reference.unreachable_text(spec, stage, automaton, image), 0
    reason = f"{kind} {stage}"
    if kind == "meets":
        is_large = reference.least_common(automaton, spec.forbidden) > reference.MOST_SYMBOLS
        reason += " " + ("large" if is_large else reference.term_text(common_term(automaton, spec.forbidden), spec))
    return head + f"undecided\nReason {reason}\nSearch {found[0]} {found[1]}\nEnd\n", 2


def main():
    parser = argparse.ArgumentParser(description="What the plain model answers to a specification.")
    parser.add_argument("file")
    for name, number in DEFAULTS.items():
        parser.add_argument(f"--{name}", type=int, default=number)
    given = vars(parser.parse_args())
    with open(given.pop("file"), encoding="utf-8") as file:
        specification = Specification(file.read())
    print(answer(specification.model(), given)[0], end="")


if __name__ == "__main__":
    main()
