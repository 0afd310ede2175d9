#!/usr/bin/env python3
"""Shows how the program's time grows with its input, or how the times of two programs compare.

    bench/growth.py [PROGRAM]
    bench/growth.py OLD NEW

makes specifications of growing size, whose states and transitions stand in random order, and runs the program on each.
Times are those of the processor, the shortest of several runs.

With one program it prints the time for a byte and, for each line but a family's first, by how much it differs from the line
before. A ratio near 1 is linear growth. For the families of the search that is the time for a term or a rule, of which
there are as many as the line counts, and the memory beside it, in MB, is the most that a run took. PROGRAM is the built
program; without it that of this repository is taken.

With two programs it runs them in turn on each specification, and prints the time of each and how many times the old one's
the new one's is. A ratio below 1 says that the new one is faster. Nothing is tested here, but that answers which differ are
marked.

Families:
  reading   no rule, one automaton; what takes time is reading
  faulty    the same with a fault at its end
  closure   one rule over one variable, and a closed automaton: each state is tried for the variable, and the states that
            are tried are found once
  swapping  one rule over two variables, and a closed automaton: for each state of the first variable the states that are
            tried for the second one are found anew
  missing   no rule, two automata that have no term in common: there is a mark for each pair of their states
  unserved  one rule over so many variables, and three states between which no transition serves it
  wide      one rule over three variables, with a transition for each state
  chain     one rule s(x) -> x, and a chain of epsilon transitions through all states: a state runs to half of them
  rungs     the same with a transition of s for each state
  dense     one rule s(f(x,y)) -> f(s(x),s(y)), and half as many transitions of f as there are states
  flat      one rule whose two sides are f(x,y), and twice as many transitions of f as there are states: they match once each
  deep      the same with f(f(x,y),z): each transition matches with those from its target
  left      the same with f(f(f(x,y),z),w)
  ending    one rule over so many variables, c(x0,c(x1,..h(x15))), over three states that c joins in all ways, and no
            transition of h: no prefix of an assignment has a match
  many      so many rules f(a0,x) -> f(a1,x), .. on one symbol, and a transition of f for each constant
  pairs     one rule f(x,y) -> y, and 32 open pairs for each state but a few
  rounds    so many chains of rules c0 -> c1, .., c17 -> c18, from each first constant: one state and up to 18 epsilon
            transitions a chain and a round, in 18 rounds
  forking   rules c0(x) -> p(c1(l(x)),c1(r(x))), .. of so many levels: each round makes twice as many states
  folding   s(s(x)) = x and f(x,y) = f(y,x), over a third more transitions than states
  cascade   a = b and s(x) = s(x), and two chains of s of so many states: each merge forces the next one
  nested    the same by a = b and s(t(x)) = s(t(x)), in chains of s and t in turn
  repeated  the same by a = b and g(x,x) = k(x): g from the last pair that was merged, and k from its first state
  all_one   x = y: all states are one
  equated   so many equations k0(x) = l0(x), .., each of which joins two states, and twelve times as many transitions of f

Families of the search, without rounds of completion:
  trees     one rule d(x) -> c(d(x),d(x)), and as many terms as the search may keep
  doubling  one rule e(x) -> e(c(x,x)), and ten terms from each start: the last has 1,024 symbols, but shares its parts
  low       so many terms of at most height 4, all starts, and no rule
  ruled     so many rules on one symbol, all tried at each of some 100 terms
"""

import os
import random
import subprocess
import sys
import tempfile
import time

HOME = os.path.dirname(os.path.dirname(os.path.abspath(__file__)))
# A program is run so often at least, and more often where a run is short: as many times as fit into these seconds.
RUNS = 5
MOST_RUNS = 50
ENOUGH = 0.5


def shuffled(items, chance):
    items = list(items)
    chance.shuffle(items)
    return items


def automaton(name, states, transitions, finals, chance):
    """The section of an automaton; states and transitions in random order."""
    return "\n".join(
        [f"Automaton {name}", "States " + " ".join(shuffled(states, chance))]
        + ["Final States " + " ".join(finals), "Transitions"]
        + shuffled(transitions, chance)
        + [""]
    )


def reading(count, chance):
    states = [f"q{i}" for i in range(count)]
    transitions = ["a -> q0"]
    for i in range(count):
        left, right = chance.randrange(count), chance.randrange(count)
        transitions.append(f"f(q{left},q{right}) -> q{i}")
    return "Ops a:0 f:2\nTRS R\n" + automaton("A", states, transitions, ["q0"], chance)


def faulty(count, chance):
    return reading(count, chance) + "f(q0,nowhere) -> q0\n"


def closure(count, chance):
    states = [f"q{i}" for i in range(count)]
    transitions = ["a -> q0"]
    for i in range(count):
        target = chance.randrange(count)
        transitions += [f"f(q{i}) -> q{target}", f"g(q{i}) -> q{target}"]
    head = "Ops a:0 f:1 g:1\nVars x\nTRS R\nf(x) -> g(x)\n"
    return head + automaton("A", states, transitions, ["q0"], chance)


def swapping(count, chance):
    states = [f"q{i}" for i in range(count)]
    transitions = ["a -> q0"]
    for i in range(count):
        other, target = chance.randrange(count), chance.randrange(count)
        transitions += [f"f(q{i},q{other}) -> q{target}", f"g(q{other},q{i}) -> q{target}"]
    head = "Ops a:0 f:2 g:2\nVars x y\nTRS R\nf(x,y) -> g(y,x)\n"
    return head + automaton("A", states, transitions, ["q0"], chance)


def missing(count, chance):
    """A chain of successors in each automaton; the one ends at an odd and the other at an even number."""
    text = "Ops a:0 f:1\nTRS R\n"
    for name, state, final in (("A", "p", count - 1), ("B", "q", count - 2)):
        states = [f"{state}{i}" for i in range(count)]
        transitions = [f"a -> {state}0"] + [f"f({state}{i}) -> {state}{i + 1}" for i in range(count - 1)]
        text += automaton(name, states, transitions, [f"{state}{final}"], chance)
    return text


def unserved(count, chance):
    names = " ".join(f"x{i}" for i in range(count))
    sides = ",".join(f"x{i}" for i in range(count))
    head = f"Ops a:0 f:{count} g:{count}\nVars {names}\nTRS R\nf({sides}) -> g({sides})\n"
    states = ["q0", "q1", "q2"]
    return head + automaton("A", states, ["a -> q0", "q0 -> q1", "q1 -> q2"], ["q0"], chance)


def wide(count, chance):
    states = [f"q{i}" for i in range(count)]
    transitions = ["a -> q0"]
    for i in range(count):
        second, third, target = (chance.randrange(count) for _ in range(3))
        transitions += [f"f(q{i},q{second},q{third}) -> q{target}", f"g(q{third},q{i},q{second}) -> q{target}"]
    head = "Ops a:0 f:3 g:3\nVars x y z\nTRS R\nf(x,y,z) -> g(z,x,y)\n"
    return head + automaton("A", states, transitions, ["q0"], chance)


def chained(count, chance, rungs):
    """A chain of epsilon transitions in random order of the states' numbers, and transitions of s at the places of it."""
    states = [f"q{i}" for i in range(count)]
    way = shuffled(states, chance)
    transitions = ["a -> " + way[0]] + [f"{way[i]} -> {way[i + 1]}" for i in range(count - 1)]
    transitions += [f"s({way[i]}) -> {way[i]}" for i in rungs]
    return "Ops a:0 s:1\nVars x\nTRS R\ns(x) -> x\n" + automaton("A", states, transitions, [way[0]], chance)


def chain(count, chance):
    return chained(count, chance, [count - 1])


def rungs(count, chance):
    return chained(count, chance, range(count))


def dense(count, chance):
    states = [f"q{i}" for i in range(count)]
    transitions = ["a -> q0"] + [f"s({state}) -> {state}" for state in states]
    for _ in range(count // 2):
        left, right, target = (chance.randrange(count) for _ in range(3))
        transitions.append(f"f(q{left},q{right}) -> q{target}")
    head = "Ops a:0 s:1 f:2\nVars x y\nTRS R\ns(f(x,y)) -> f(s(x),s(y))\n"
    return head + automaton("A", states, transitions, ["q0"], chance)


def searching(rules, transitions, symbols, finals):
    """A specification whose forbidden automaton accepts nothing that is reached."""
    head = f"Ops {symbols} never:0\nVars x\nTRS R\n" + "".join(rule + "\n" for rule in rules)
    init = "Automaton A\nStates q0 q1\nFinal States " + finals + "\nTransitions\n" + "\n".join(transitions) + "\n"
    return head + init + "Automaton Bad\nStates p0\nFinal States p0\nTransitions\nnever -> p0\n"


def options(steps, terms):
    return ["--rounds", "0", "--steps", str(steps), "--terms", str(terms)]


def trees(count):
    text = searching(["d(x) -> c(d(x),d(x))"], ["a -> q0", "d(q0) -> q1"], "a:0 d:1 c:2", "q1")
    return text, options(100, count)


def doubling(count):
    names = [f"a{i}" for i in range(count // 10)]
    symbols = " ".join(f"{name}:0" for name in names) + " c:2 e:1"
    text = searching(["e(x) -> e(c(x,x))"], [f"{name} -> q0" for name in names] + ["e(q0) -> q1"], symbols, "q1")
    return text, options(9, 50000)


def low(count):
    """Constants under up to three of eight symbols: 585 terms for each constant."""
    names, over = [f"a{i}" for i in range(count // 585)], [f"s{i}" for i in range(8)]
    symbols = " ".join([f"{name}:0" for name in names] + [f"{name}:1" for name in over])
    text = searching([], [f"{name} -> q0" for name in names] + [f"{name}(q0) -> q0" for name in over], symbols, "q0")
    return text, options(5, 5000)


def ruled(count):
    names = [f"a{i}" for i in range(max(100, count // 2))]
    symbols = " ".join(f"{name}:0" for name in names) + " f:1"
    sides = [(names[i % len(names)], names[(i % len(names) + 1 + i // len(names)) % len(names)]) for i in range(count)]
    rules = [f"f({left}) -> f({right})" for left, right in sides]
    return searching(rules, [f"{names[0]} -> q0", "f(q0) -> q1"], symbols, "q1"), options(50, 50000)


SEARCHES = [
    (trees, [12500, 25000, 50000]),
    (doubling, [5000, 10000, 20000]),
    (low, [1170, 2340, 4680]),
    (ruled, [1024, 2048, 4096]),
]

def both_sides(count, chance, pattern):
    """A rule with this pattern on both sides, and twice as many transitions as states."""
    states = [f"q{i}" for i in range(count)]
    transitions = ["a -> q0"]
    for _ in range(2 * count):
        left, right, target = (chance.randrange(count) for _ in range(3))
        transitions.append(f"f(q{left},q{right}) -> q{target}")
    head = f"Ops a:0 f:2\nVars x y z w\nTRS R\n{pattern} -> {pattern}\n"
    return head + automaton("A", states, transitions, ["q0"], chance)


def flat(count, chance):
    return both_sides(count, chance, "f(x,y)")


def deep(count, chance):
    return both_sides(count, chance, "f(f(x,y),z)")


def left(count, chance):
    return both_sides(count, chance, "f(f(f(x,y),z),w)")


def leaning(count, chance):
    """A first argument so deep, over 1,000 states that each run to themselves under it."""
    states = [f"q{i}" for i in range(1000)]
    transitions = [f"s({state}) -> {state}" for state in states] + [f"f({state},{state}) -> {state}" for state in states]
    side = "f(" + "s(" * count + "x" + ")" * count + ",y)"
    head = f"Ops a:0 s:1 f:2\nVars x y\nTRS R\n{side} -> {side}\n"
    return head + automaton("A", states, [*transitions, "a -> q0"], ["q0"], chance)


def spread(count, chance):
    """One state of x lets s(x) run to so many states, each of which goes with one state of y."""
    parts, others = [f"p{i}" for i in range(count)], [f"y{i}" for i in range(count)]
    transitions = [f"s(q0) -> {p}" for p in parts] + [f"f({p},{y}) -> t" for p, y in zip(parts, others)]
    head = "Ops a:0 s:1 f:2\nVars x y\nTRS R\nf(s(x),y) -> f(s(x),y)\n"
    return head + automaton("A", ["q0", "t", *parts, *others], ["a -> q0", *transitions], ["t"], chance)


def inner(count, chance):
    """One state of x goes with so many states of f(y,z), each of which has one state of y and one of z."""
    parts, first, last = ([f"{letter}{i}" for i in range(count)] for letter in "pac")
    transitions = [f"f(q0,{p}) -> t" for p in parts] + [f"f({a},{c}) -> {p}" for p, a, c in zip(parts, first, last)]
    head = "Ops k:0 f:2\nVars x y z\nTRS R\nf(x,f(y,z)) -> f(x,f(y,z))\n"
    return head + automaton("A", ["q0", "t", *parts, *first, *last], ["k -> q0", *transitions], ["t"], chance)


def comb(count, chance):
    """The same with a comb under the second argument."""
    parts, deeper, first, last, more = ([f"{letter}{i}" for i in range(count)] for letter in "pdacw")
    transitions = [f"h(q0,{p}) -> t" for p in parts] + [f"g({d},{w}) -> {p}" for p, d, w in zip(parts, deeper, more)]
    transitions += [f"g({a},{c}) -> {d}" for d, a, c in zip(deeper, first, last)]
    head = "Ops k:0 g:2 h:2\nVars x y z w\nTRS R\nh(x,g(g(y,z),w)) -> h(x,g(g(y,z),w))\n"
    states = ["q0", "t", *parts, *deeper, *first, *last, *more]
    return head + automaton("A", states, ["k -> q0", *transitions], ["t"], chance)


def ending(count, chance):
    names = [f"x{i}" for i in range(count)]
    side = f"h({names[-1]})"
    for name in reversed(names[:-1]):
        side = f"c({name},{side})"
    states = ["q0", "q1", "q2"]
    transitions = [f"a -> {state}" for state in states]
    transitions += [f"c({one},{other}) -> {target}" for one in states for other in states for target in states]
    head = f"Ops a:0 h:1 c:2\nVars {' '.join(names)}\nTRS R\n{side} -> a\n"
    return head + automaton("A", states, transitions, ["q0"], chance)


def many(count, chance):
    symbols = " ".join(f"a{i}:0" for i in range(count))
    rules = "".join(f"f(a{i},x) -> f(a{(i + 1) % count},x)\n" for i in range(count))
    transitions = [f"a{i} -> q{i}" for i in range(count)] + [f"f(q{i},q{i}) -> q0" for i in range(count)]
    head = f"Ops f:2 {symbols}\nVars x\nTRS R\n{rules}"
    return head + automaton("A", [f"q{i}" for i in range(count)], transitions, ["q0"], chance)


def pairs(count, chance):
    """Each of so many states leads to c, and each of 32 others to d: so each pair of them runs to t under f."""
    firsts, seconds = [f"p{i}" for i in range(count)], [f"q{i}" for i in range(32)]
    transitions = ["a -> p0", "f(c,d) -> t"] + [f"{state} -> c" for state in firsts] + [f"{state} -> d" for state in seconds]
    head = "Ops a:0 f:2\nVars x y\nTRS R\nf(x,y) -> y\n"
    return head + automaton("A", firsts + seconds + ["c", "d", "t"], transitions, ["p0"], chance)
def rounds(count, chance):
    """Chains of rules between constants. A file of 20 rounds has room for 18 of them before the round that finds nothing."""
    length = 19
    names = [f"c{i}_{j}" for i in range(count) for j in range(length)]
    rules = [f"c{i}_{j} -> c{i}_{j + 1}" for i in range(count) for j in range(length - 1)]
    states = [f"q{i}" for i in range(count)]
    transitions = [f"c{i}_0 -> q{i}" for i in range(count)]
    head = "Ops " + " ".join(f"{name}:0" for name in names) + "\nTRS R\n" + "\n".join(rules) + "\n"
    return head + automaton("A", states, transitions, ["q0"], chance)


def forking(levels, chance):
    symbols = " ".join(f"c{i}:1" for i in range(levels + 1))
    rules = "\n".join(f"c{i}(x) -> p(c{i + 1}(l(x)),c{i + 1}(r(x)))" for i in range(levels))
    head = f"Ops a:0 l:1 r:1 p:2 {symbols}\nVars x\nTRS R\n{rules}\n"
    return head + automaton("A", ["q0", "q1"], ["a -> q0", "c0(q0) -> q1"], ["q1"], chance)


def merging(symbols, equations, states, transitions, chance):
    """An automaton with one open pair, which needs no fresh state; after it the equations merge."""
    head = f"Ops u:0 v:0 a:0 b:0 {symbols}\nVars x y\nTRS R\nu -> v\nEquations E\nRules\n{equations}\n"
    return head + automaton("A", states, ["u -> q0", "v -> q1"] + transitions, ["q0"], chance)


def folding(count, chance):
    states = [f"q{i}" for i in range(count)]
    transitions = []
    for i in range(count // 3 * 2):
        transitions.append(f"s(q{chance.randrange(count)}) -> q{chance.randrange(count)}")
        left, right = chance.randrange(count), chance.randrange(count)
        transitions.append(f"f(q{left},q{right}) -> q{chance.randrange(count)}")
    return merging("s:1 f:2", "s(s(x)) = x f(x,y) = f(y,x)", states, transitions, chance)


def two_chains(count, symbols, chance):
    """Two chains of so many states, whose symbols come in turn; states numbered at random."""
    states = shuffled([f"q{i}" for i in range(2 * count)], chance)
    one, other = states[:count], states[count:]
    transitions = [f"a -> {one[0]}", f"b -> {other[0]}"]
    for chain in (one, other):
        for i in range(count - 1):
            transitions.append(f"{symbols[i % len(symbols)]}({chain[i]}) -> {chain[i + 1]}")
    return sorted(states), transitions


def cascade(count, chance):
    states, transitions = two_chains(count, "s", chance)
    return merging("s:1", "a = b s(x) = s(x)", states, transitions, chance)


def nested(count, chance):
    states, transitions = two_chains(count, "ts", chance)
    return merging("s:1 t:1", "a = b s(t(x)) = s(t(x))", states, transitions, chance)


def repeated(count, chance):
    states = [f"q{i}" for i in range(2 * count)]
    way = shuffled(states, chance)
    transitions = [f"a -> {way[0]}", f"b -> {way[1]}"]
    for i in range(count - 1):
        transitions.append(f"g({way[2 * i]},{way[2 * i + 1]}) -> {way[2 * i + 2]}")
        transitions.append(f"k({way[2 * i]}) -> {way[2 * i + 3]}")
    return merging("g:2 k:1", "a = b g(x,x) = k(x)", states, transitions, chance)


def all_one(count, chance):
    return merging("", "x = y", [f"q{i}" for i in range(count)], [], chance)


def equated(count, chance):
    """Each equation has symbols of its own, with one transition each, from one state."""
    states = [f"q{i}" for i in range(4 * count)]
    transitions, equations = [], []
    for i in range(count):
        state, left, right = (chance.randrange(4 * count) for _ in range(3))
        transitions += [f"k{i}(q{state}) -> q{left}", f"l{i}(q{state}) -> q{right}"]
        equations.append(f"k{i}(x) = l{i}(x)")
    for _ in range(12 * count):
        left, right, target = (chance.randrange(4 * count) for _ in range(3))
        transitions.append(f"f(q{left},q{right}) -> q{target}")
    symbols = "f:2 " + " ".join(f"k{i}:1 l{i}:1" for i in range(count))
    return merging(symbols, "\n".join(equations), states, transitions, chance)


FAMILIES = [
    (reading, [4000, 8000, 16000]),
    (faulty, [4000, 8000, 16000]),
    (closure, [1000, 2000, 4000]),
    (swapping, [500, 1000, 2000]),
    (missing, [4096, 8192, 16384]),
    (unserved, [4, 8, 16]),
    (wide, [750, 1500, 3000]),
    (chain, [4096, 8192, 16384]),
    (rungs, [4096, 8192, 16384]),
    (dense, [500, 1000, 2000]),
    (flat, [500, 1000, 2000]),
    (deep, [500, 1000, 2000]),
    (left, [500, 1000, 2000]),
    (leaning, [24, 48, 96]),
    (spread, [500, 1000, 2000]),
    (inner, [500, 1000, 2000]),
    (comb, [500, 1000, 2000]),
    (ending, [4, 8, 16]),
    (many, [1000, 2000, 4000]),
    (pairs, [750, 1500, 3000]),
    (rounds, [50, 100, 200]),
    (forking, [7, 8, 9]),
    (folding, [300, 600, 1200]),
    (cascade, [500, 1000, 2000]),
    (nested, [500, 1000, 2000]),
    (repeated, [500, 1000, 2000]),
    (all_one, [1250, 2500, 5000]),
    (equated, [256, 512, 1024]),
]


def one_run(program, folder, words):
    """The processor seconds of one run on the file F of the folder, the most memory in MB, and the answer in one line."""
    with subprocess.Popen([program, "complete", "F", *words], cwd=folder, stdout=subprocess.PIPE) as run:
        answer = " | ".join(run.stdout.read().decode().split("\n")[1:3]).strip(" |")[:60]
        _, status, used = os.wait4(run.pid, 0)
        run.returncode = os.WEXITSTATUS(status)
    return used.ru_utime + used.ru_stime, used.ru_maxrss / 1024, answer


def seconds(programs, text, words):
    """For each of the programs the shortest time of some runs, the most memory, and its answer. They are run in turn."""
    best, answers = [float("inf")] * len(programs), [""] * len(programs)
    memory = [0.0] * len(programs)
    with tempfile.TemporaryDirectory() as folder:
        with open(os.path.join(folder, "F"), "w", encoding="ascii") as file:
            file.write(text)
        began = time.perf_counter()
        for count in range(MOST_RUNS):
            if count >= RUNS and time.perf_counter() - began > ENOUGH * len(programs):
                break
            for at, program in enumerate(programs):
                took, used, answers[at] = one_run(program, folder, words)
                best[at], memory[at] = min(best[at], took), max(memory[at], used)
    return best, memory, answers


def texts():
    """The family, what it counts, the text, the options, and how many things the time is divided by, of each specification
    that isn't too long."""
    for family, sizes in FAMILIES:
        for count in sizes:
            text = family(count, random.Random(count))
            if len(text) > 1048576:
                print(f"{family.__name__:8} {count:7} {len(text):8}  too long, left out")
            else:
                yield family.__name__, count, text, [], len(text)
    for family, sizes in SEARCHES:
        for count in sizes:
            text, words = family(count)
            yield family.__name__, count, text, words, count


def growth(program):
    print(f"{'family':8} {'count':>7} {'bytes':>8} {'seconds':>8} {'MB':>7} {'ns each':>8} {'ratio':>6}  answer")
    before = {}
    for family, count, text, words, things in texts():
        [took], [memory], [answer] = seconds([program], text, words)
        each = took / things * 1e9
        ratio = f"{each / before[family]:.2f}" if family in before else ""
        print(f"{family:8} {count:7} {len(text):8} {took:8.3f} {memory:7.1f} {each:8.1f} {ratio:>6}  {answer}")
        before[family] = each


def compare(old, new):
    print(f"{'family':8} {'count':>7} {'bytes':>8} {'old s':>8} {'new s':>8} {'new/old':>7}  answer")
    for family, count, text, words, _ in texts():
        times, _, answers = seconds([old, new], text, words)
        answer = answers[1] if answers[0] == answers[1] else f"DIFFERENT: {answers[0]}; {answers[1]}"
        print(f"{family:8} {count:7} {len(text):8} {times[0]:8.3f} {times[1]:8.3f} {times[1] / times[0]:7.2f}  {answer}")


def main():
    programs = [os.path.abspath(it) for it in sys.argv[1:]] or [os.path.join(HOME, "crates/timbuk_cli/out/timbuk_cli")]
    if len(programs) == 1:
        growth(programs[0])
    elif len(programs) == 2:
        compare(*programs)
    else:
        sys.exit(__doc__.strip())


if __name__ == "__main__":
    main()
