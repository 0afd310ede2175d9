"""Reads specifications for the scripts of this folder, in a plain way and without tests: the text has to be right.

A pattern is ('f', symbol, arguments) or ('v', variable), a shape also ('q', state), with numbers as docs/FORMAT.md has
them. `Specification` has what stands in the text; `model` makes what `reference.py` works with.
"""

import re

import reference

SECTIONS = {"Ops", "Vars", "TRS", "Automaton", "Equations", "Approximation"}
TOKEN = re.compile(r'\(\*.*?\*\)|"[^"]*"|->|[():,=\[\]]|[^\s():,=\[\]"]+', re.S)


class Specification:
    def __init__(self, source):
        self.tokens = [token for token in TOKEN.findall(source) if not token.startswith("(*")]
        self.at = 0
        self.symbols, self.arities, self.variables = [], [], []
        self.rules, self.equations, self.entries = [], [], []
        self.automata, self.extra, self.approximated = [], 0, False
        while self.peek() is not None:
            getattr(self, "read_" + self.take().lower())()

    # ---- tokens

    def peek(self):
        return self.tokens[self.at] if self.at < len(self.tokens) else None

    def take(self, *expected):
        for token in expected or (None,):
            found = self.peek()
            if found is None or token not in (None, found):
                raise ValueError(f"{found} in place of {token}")
            self.at += 1
        return found

    def until(self, *ends):
        while self.peek() is not None and self.peek() not in ends:
            yield self.peek()

    def applied(self, argument):
        """A name, and its arguments, each read by the function."""
        name, args = self.take(), []
        if self.peek() == "(":
            self.take("(")
            args.append(argument())
            while self.peek() == ",":
                self.take(",")
                args.append(argument())
            self.take(")")
        return name, tuple(args)

    def shape(self, states=None):
        name, args = self.applied(lambda: self.shape(states))
        if name in self.symbols:
            return ("f", self.symbols.index(name), args)
        return ("v", self.variables.index(name)) if name in self.variables else ("q", states[name])

    # ---- sections

    def read_ops(self):
        for _ in self.until(*SECTIONS):
            self.symbols.append(self.take())
            self.take(":")
            self.arities.append(int(self.take()))

    def read_vars(self):
        for _ in self.until(*SECTIONS):
            self.variables.append(self.take())

    def pairs(self, mark, found):
        for _ in self.until(*SECTIONS):
            left = self.shape()
            self.take(mark)
            found.append((left, self.shape()))

    def read_trs(self):
        self.take()
        self.pairs("->", self.rules)

    def read_equations(self):
        self.take()
        self.take("Rules")
        self.pairs("=", self.equations)

    def states(self, first, *ends):
        found = {}
        for _ in self.until(*ends):
            found[self.take()] = first + len(found)
            if self.peek() == ":":
                self.take(":", "0")
        return found

    def read_automaton(self):
        self.take()
        self.take("States")
        states = self.states(0, "Description", "Final")
        for _ in self.until("Final"):
            self.take()
        self.take("Final", "States")
        finals = [states[self.take()] for _ in self.until("Prior", "Transitions")]
        trans, eps = [], []
        for token in self.until(*SECTIONS):
            if token in ("Prior", "Transitions"):
                self.take()
                continue
            name, args = self.applied(lambda: states[self.take()])
            self.take("->")
            to = states[self.take()]
            if name in self.symbols:
                trans.append((self.symbols.index(name), args, to))
            else:
                eps.append((states[name], to))
        self.automata.append((states, reference.Automaton(len(states), states.values(), finals, trans, eps)))

    def read_approximation(self):
        self.take()
        self.take("States")
        own = self.automata[0][0]
        states = self.states(len(own), "Rules")
        self.extra = len(states)
        states.update(own)
        self.take("Rules")
        for _ in self.until(*SECTIONS):
            self.take("[")
            whole = self.shape(states)
            self.take("->")
            at = self.shape(states)
            self.take("]", "->", "[")
            for _ in self.until("]"):
                node = self.shape(states)
                self.take("->")
                self.entries.append((whole, at, node, states[self.take()]))
            self.take("]")
        self.approximated = True

    def model(self):
        forbidden = self.automata[1][1] if len(self.automata) > 1 else reference.Automaton(0)
        return reference.Spec(
            self.arities,
            self.symbols,
            self.rules,
            self.equations,
            self.entries,
            self.extra,
            self.approximated,
            self.automata[0][1],
            forbidden,
        )
