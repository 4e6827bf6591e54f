#!/usr/bin/env python3
"""Writes the negation of a rule for MONA: mona.py places|sets SIGNALS RULE prints a formula of M2L on strings.

A string is a row of rounds with at least one, its places are 0 to $, and the set variable S_NAME has the places where the
signal is on. The automaton of the formula accepts a string exactly when the rule fails at its first round. `places` says
`fails` of docs/RULES.md with quantifiers over places; `sets` has a set of places for each part of the rule."""
import itertools
import pathlib
import sys

import ltl


class Places:
    """Quantified places. Each gets a name of its own."""

    def __init__(self):
        self.numbers = itertools.count()

    def fails(self, rule, place):
        """That the rule fails at the place, which is a place of the string."""
        match rule.op:
            case "on":
                return f"{place} notin S_{rule.left}"
            case "off":
                return f"{place} in S_{rule.left}"
            case "X":
                return self.fails_next(rule.left, place)
            case "R":
                return self.fails_release(rule, place)
            case "&":
                return f"({self.fails(rule.left, place)} | {self.fails(rule.right, place)})"
            case "|":
                return f"({self.fails(rule.left, place)} & {self.fails(rule.right, place)})"
        return "true" if rule.op == "false" else "false"

    def fails_next(self, rule, place):
        later = f"({place} < max($) & {self.fails(rule, place + ' + 1')})"
        return f"({place} = max($) | {later})" if ltl.fails_behind(rule) else later

    def fails_release(self, rule, place):
        j, k = f"j{next(self.numbers)}", f"k{next(self.numbers)}"
        found = f"{place} <= {j} & {self.fails(rule.right, j)}"
        if rule.left.op == "false":
            return f"(ex1 {j}: {found})"
        before = f"all1 {k}: ({place} <= {k} & {k} < {j}) => {self.fails(rule.left, k)}"
        return f"(ex1 {j}: {found} & ({before}))"

    def formula(self, rule):
        """That the rule fails at the first round."""
        return f"ex1 p: p = 0 & {self.fails(rule, 'p')}"


class Sets:
    """A set of places for each part: those where it fails."""

    def __init__(self):
        self.parts = {}

    def number(self, rule):
        """The part's set; the sides come first."""
        if rule not in self.parts:
            sides = {"X": [rule.left], "R": [rule.left, rule.right], "&": [rule.left, rule.right]}
            for side in sides.get("&" if rule.op == "|" else rule.op, []):
                self.number(side)
            self.parts[rule] = f"F{len(self.parts)}"
        return self.parts[rule]

    def line(self, rule):
        """When a place is in the part's set."""
        left = self.parts.get(rule.left)
        right = self.parts.get(rule.right)
        match rule.op:
            case "on":
                return f"p notin S_{rule.left}"
            case "off":
                return f"p in S_{rule.left}"
            case "X":
                behind = " | p = max($)" if ltl.fails_behind(rule.left) else ""
                return f"(p < max($) & p + 1 in {left}){behind}"
            case "R":
                return f"p in {right} | (p in {left} & p < max($) & p + 1 in {self.parts[rule]})"
            case "&":
                return f"p in {left} | p in {right}"
            case "|":
                return f"p in {left} & p in {right}"
        return "true" if rule.op == "false" else "false"

    def formula(self, rule):
        """That the first round is in the rule's set."""
        root = self.number(rule)
        lines = [f"(all1 p: p in {name} <=> ({self.line(part)}))" for part, name in self.parts.items()]
        return f"ex2 {', '.join(self.parts.values())}: {' & '.join(lines)} & 0 in {root}"


WAYS = {"places": Places, "sets": Sets}


def mona_text(signals, rule, way):
    """What MONA reads."""
    names = [name for side in signals for name in side]
    variables = f"var2 {', '.join('S_' + name for name in names)};\n" if names else ""
    return f"m2l-str;\n{variables}{way.formula(rule)};\n"


def main():
    if len(sys.argv) != 4 or sys.argv[1] not in WAYS:
        raise SystemExit("usage: bench/mona.py places|sets SIGNALS RULE")
    way, named, ruled = sys.argv[1:]
    signals = ltl.read_signals(pathlib.Path(named).read_text())
    rule = ltl.read_rule(pathlib.Path(ruled).read_text(), signals[0] + signals[1])
    print(mona_text(signals, rule, WAYS[way]()), end="")


if __name__ == "__main__":
    main()
