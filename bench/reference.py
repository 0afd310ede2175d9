"""A plain, slow model of completion, of the bounded search and of the check of certificates, written from the definitions
in docs/MODEL.md and sharing nothing with the program. It is for specifications with a few states, rules and symbols alone:
it tries every assignment of states to variables. `random_specifications.py` compares the program with it.

A term, a pattern and a configuration are tuples: ('f', symbol, arguments), ('v', variable) or ('q', state).
"""

import itertools

# The largest number of symbols of a term that the search meets, and of a witness that is written out.
MOST_SYMBOLS = 1024


class TooLarge(Exception):
    """The specification is too large for this model."""


class Automaton:
    """States, the number above them, final states, transitions (symbol, arguments, target) and epsilon transitions."""

    def __init__(self, next, states=(), finals=(), trans=(), eps=()):
        self.next = next
        self.states = set(states)
        self.finals = set(finals)
        self.trans = set(trans)
        self.eps = {(p, q) for p, q in eps if p != q}

    def copy(self):
        return Automaton(self.next, self.states, self.finals, self.trans, self.eps)

    def closed(self, states):
        """The states with all that epsilon transitions lead to from them."""
        found = set(states)
        todo = list(found)
        while todo:
            p = todo.pop()
            for source, target in self.eps:
                if source == p and target not in found:
                    found.add(target)
                    todo.append(target)
        return found

    def runs(self, config, plain=False):
        """The states to which a configuration runs; plainly, without epsilon transitions."""
        if config[0] == "q":
            found = {config[1]} & self.states
        else:
            sets = [self.runs(arg, plain) for arg in config[2]]
            found = {
                to
                for sym, args, to in self.trans
                if sym == config[1] and len(args) == len(sets) and all(q in s for q, s in zip(args, sets))
            }
        return found if plain else self.closed(found)

    def accepts(self, term):
        return bool(self.runs(term) & self.finals)


class Spec:
    def __init__(self, arities, names, rules, equations, entries, extra, approximated, initial, forbidden):
        self.arities = arities
        self.names = names
        self.rules = rules
        self.equations = equations
        self.entries = entries
        self.extra = extra
        self.approximated = approximated
        self.initial = initial
        self.forbidden = forbidden


def size(term):
    return 1 + sum(size(arg) for arg in term[2])


def variables(pattern, found=None):
    """The variables of a pattern by first occurrence."""
    found = [] if found is None else found
    if pattern[0] == "v":
        if pattern[1] not in found:
            found.append(pattern[1])
    elif pattern[0] == "f":
        for arg in pattern[2]:
            variables(arg, found)
    return found


def assigned(pattern, values):
    """The pattern with each variable replaced by its value."""
    if pattern[0] == "v":
        return values[pattern[1]]
    if pattern[0] == "q":
        return pattern
    return ("f", pattern[1], tuple(assigned(arg, values) for arg in pattern[2]))


def assignments(names, automaton):
    states = sorted(automaton.states)
    if len(states) ** len(names) > 20000:
        raise TooLarge
    return itertools.product(states, repeat=len(names))


# ---- completion


def open_pairs(automaton, rules):
    found = []
    for number, (left, right) in enumerate(rules):
        names = variables(left)
        for sigma in assignments(names, automaton):
            values = {v: ("q", q) for v, q in zip(names, sigma)}
            reached = automaton.runs(assigned(left, values))
            if reached:
                found += [(number, sigma, q) for q in sorted(reached - automaton.runs(assigned(right, values)))]
    return found


def shape_matches(shape, config, values, image):
    """Whether the assignment of states to the variables can be extended so that the shape is the configuration."""
    if shape[0] == "v":
        return config[0] == "q" and values.setdefault(shape[1], config[1]) == config[1]
    if shape[0] == "q":
        return config == ("q", image[shape[1]])
    return (
        config[0] == "f"
        and config[1] == shape[1]
        and all(shape_matches(a, b, values, image) for a, b in zip(shape[2], config[2]))
    )


def normalise(automaton, spec, image, pair):
    """Normalises a pair in place and returns the numbers of `next` at which a fresh state was made."""
    number, sigma, state = pair
    left, right = spec.rules[number]
    whole = assigned(right, {v: ("q", q) for v, q in zip(variables(left), sigma)})
    fresh = []

    def put(config):
        if config[0] == "q":
            return config[1]
        args = tuple(put(arg) for arg in config[2])
        node = ("f", config[1], tuple(("q", p) for p in args))
        for shape, target, shape_of_node, to in spec.entries:
            values = {}
            if (
                shape_matches(shape, whole, values, image)
                and shape_matches(target, ("q", state), values, image)
                and shape_matches(shape_of_node, node, values, image)
            ):
                goal = image[to]
                break
        else:
            known = [to for sym, places, to in automaton.trans if (sym, places) == (config[1], args)]
            if known:
                goal = min(known)
            else:
                goal = automaton.next
                fresh.append(goal)
                automaton.states.add(goal)
                automaton.next += 1
        automaton.trans.add((config[1], args, goal))
        return goal

    p = put(whole)
    if p != state:
        automaton.eps.add((p, state))
    return fresh


def forced(automaton, equations):
    found = set()
    for left, right in equations:
        names = variables(right, variables(left))
        for sigma in assignments(names, automaton):
            values = {v: ("q", q) for v, q in zip(names, sigma)}
            for p in automaton.runs(assigned(left, values), plain=True):
                for q in automaton.runs(assigned(right, values), plain=True):
                    if p != q:
                        found.add((min(p, q), max(p, q)))
    return sorted(found)


def joined(automaton, kept, gone):
    image = lambda q: kept if q == gone else q
    return Automaton(
        automaton.next,
        {image(q) for q in automaton.states},
        {image(q) for q in automaton.finals},
        {(sym, tuple(image(q) for q in args), image(to)) for sym, args, to in automaton.trans},
        {(image(p), image(q)) for p, q in automaton.eps},
    )


def merged(automaton, equations, image):
    while True:
        pairs = forced(automaton, equations)
        if not pairs:
            return automaton, image
        kept, gone = pairs[0]
        automaton = joined(automaton, kept, gone)
        image = [kept if q == gone else q for q in image]


# ---- languages


def least_sizes(a, b):
    """For each pair of states of the two automata to which one ground term runs, the least size of such a term."""
    best = {}
    changed = True
    while changed:
        changed = False

        def offer(pair, number):
            nonlocal changed
            if number < best.get(pair, 10**9):
                best[pair] = number
                changed = True

        for sym, args, to in a.trans:
            for other, places, target in b.trans:
                if sym == other and all(pair in best for pair in zip(args, places)):
                    offer((to, target), 1 + sum(best[pair] for pair in zip(args, places)))
        for (p, q), number in list(best.items()):
            for source, target in a.eps:
                if source == p:
                    offer((target, q), number)
            for source, target in b.eps:
                if source == q:
                    offer((p, target), number)
    return best


def least_common(a, b):
    """The least size of a common term of the two languages, or None."""
    best = least_sizes(a, b)
    return min((n for (p, q), n in best.items() if p in a.finals and q in b.finals), default=None)


# ---- the bounded search


def low_terms(automaton, height, most):
    """For each state the terms of at most this height that run to it, or None where there are more pairs than that or one is
    too large."""
    terms = {q: set() for q in automaton.states}
    for _ in range(height):
        now = {q: set() for q in automaton.states}
        for sym, args, to in automaton.trans:
            count = 1
            for q in args:
                count *= len(terms[q])
            if count > 100000:
                raise TooLarge
            for chosen in itertools.product(*(terms[q] for q in args)):
                term = ("f", sym, chosen)
                for q in automaton.closed({to}):
                    now[q].add(term)
            if sum(len(found) for found in now.values()) > most:
                return None
        terms = now
    if sum(len(found) for found in terms.values()) > most:
        return None
    if any(size(term) > MOST_SYMBOLS for found in terms.values() for term in found):
        return None
    return terms


def matched(pattern, term, values):
    if pattern[0] == "v":
        return values.setdefault(pattern[1], term) == term
    return pattern[1] == term[1] and all(matched(a, b, values) for a, b in zip(pattern[2], term[2]))


def steps_from(term, rules):
    found = []
    for number, (left, right) in enumerate(rules):
        values = {}
        if matched(left, term, values):
            found.append((number, (), assigned(right, values)))
    for place, arg in enumerate(term[2]):
        for number, at, other in steps_from(arg, rules):
            found.append((number, (place + 1,) + at, ("f", term[1], term[2][:place] + (other,) + term[2][place + 1 :])))
    return found


def search(spec, options):
    """('found', j), ('over', j) or ('exhausted', steps)."""
    low = low_terms(spec.initial, options["height"], options["terms"])
    if low is None:
        return ("over", 0)
    reached = set().union(*(low[q] for q in spec.initial.finals), set())
    last = reached
    for j in range(options["steps"] + 1):
        if len(reached) > options["terms"] or any(size(term) > MOST_SYMBOLS for term in reached):
            return ("over", j)
        if any(spec.forbidden.accepts(term) for term in last):
            return ("found", j)
        if j < options["steps"]:
            last = {other for term in last for _, _, other in steps_from(term, spec.rules)} - reached
            reached = reached | last
            if len(reached) > 20000:
                raise TooLarge
    return ("exhausted", options["steps"])


# ---- the verdict


def is_singular(automaton):
    counts = {}
    for _, args, to in automaton.trans:
        counts[to] = counts.get(to, 0) + 1
        if any(q >= to for q in args):
            return False
    return not automaton.eps and all(counts.get(q) == 1 for q in automaton.states)


def start(spec):
    automaton = spec.initial.copy()
    automaton.states |= set(range(automaton.next, automaton.next + spec.extra))
    automaton.next += spec.extra
    return automaton, list(range(automaton.next))


def stages(spec, options):
    """How bounded completion ends, ('closed' | 'meets' | 'rounds' | 'pairs' | 'states', stage), with the automaton and the map."""
    automaton, image = start(spec)
    stage = 0
    while True:
        if len(automaton.states) > 40 or len(automaton.trans) > 200:
            raise TooLarge
        if least_common(automaton, spec.forbidden) is not None:
            return ("meets", stage), automaton, image
        pairs = open_pairs(automaton, spec.rules)
        if not pairs:
            return ("closed", stage), automaton, image
        if stage == options["rounds"]:
            return ("rounds", stage), automaton, image
        if len(pairs) > options["pairs"]:
            return ("pairs", stage), automaton, image
        grown = automaton.copy()
        fresh = [number for pair in pairs for number in normalise(grown, spec, image, pair)]
        if any(number >= options["states"] for number in fresh):
            return ("states", stage), automaton, image
        automaton, image = merged(grown, spec.equations, image)
        stage += 1


# ---- texts


def term_text(term, spec):
    name = spec.names[term[1]]
    return name + ("(" + ",".join(term_text(arg, spec) for arg in term[2]) + ")" if term[2] else "")


def numbers(head, items):
    return " ".join([head] + [str(item) for item in items])


def unreachable_text(spec, stage, automaton, image):
    lines = ["Timbuk certificate 1", "Verdict unreachable", f"Note rounds {stage}"]
    if is_singular(spec.initial) and not spec.approximated:
        lines.append("Note precise modulo equations")
    lines += [
        f"Next {automaton.next}",
        numbers("States", sorted(automaton.states)),
        numbers("Finals", sorted(automaton.finals)),
        numbers("Map", image[: spec.initial.next]),
    ]
    for sym, args, to in sorted(automaton.trans):
        inner = "(" + ",".join(map(str, args)) + ")" if args else ""
        lines.append(f"T {spec.names[sym]}{inner} -> {to}")
    lines += [f"E {p} -> {q}" for p, q in sorted(automaton.eps)] + ["End"]
    return "".join(line + "\n" for line in lines)


# ---- certificates


def is_accepted(spec, automaton, image):
    """Whether the automaton contains the initial one by the map, is closed under the rules and misses the forbidden language."""
    initial = spec.initial
    for sym, args, to in initial.trans:
        if image[to] not in automaton.runs(("f", sym, tuple(("q", image[q]) for q in args))):
            return False
    if any(image[q] not in automaton.closed({image[p]}) for p, q in initial.eps):
        return False
    if any(image[q] not in automaton.finals for q in initial.finals):
        return False
    return not open_pairs(automaton, spec.rules) and least_common(automaton, spec.forbidden) is None


def replays(spec, first, steps):
    """Whether a derivation starts in the initial language, each step is one by its rule at its position, and it ends in a
    forbidden term."""
    if not spec.initial.accepts(first):
        return False
    term = first
    for number, at, other in steps:
        if (number, at, other) not in steps_from(term, spec.rules):
            return False
        term = other
    return spec.forbidden.accepts(term)
