#!/usr/bin/env python3
"""Compares a game with MONA's automaton: agree.py SIGNALS GAME AUTOMATON walks both together, over every row of rounds.

GAME is what `playbook show` prints of a rule, AUTOMATON what `mona -q -u -w` prints of the formula of mona.py. They agree
when each row of rounds leads the game to lost exactly when the automaton accepts it. Prints how many pairs were met."""
import itertools
import pathlib
import re
import sys

import ltl

LOST = "lost"


def read_game(text):
    """The start, and where the round (input, output) leads from a position."""
    start, position, moves = 0, 0, {}
    for line in text.splitlines():
        if found := re.search(r"start (\d+)", line):
            start = int(found[1])
        elif found := re.fullmatch(r"position (\d+)", line):
            position = int(found[1])
        elif found := re.match(r"  input (\d+): ", line):
            for y, q in re.findall(r"output (\d+) (?:to )?(\w+)", line):
                moves[position, int(found[1]), int(y)] = LOST if q == LOST else int(q)
    return start, moves


class Automaton:
    """The states as MONA prints them: each with the patterns of its letters and where they lead."""

    def __init__(self, text):
        self.names = re.search(r"free variables: (.*)", text)[1].split()
        self.accepting = {int(n) for n in re.search(r"Accepting states: (.*)", text)[1].split()}
        self.patterns = {}
        for state, pattern, then in re.findall(r"State (\d+): ([01X]*) -> state (\d+)", text):
            self.patterns.setdefault(int(state), []).append((pattern, int(then)))

    def after(self, state, on):
        """The state that the letter with these variables leads to."""
        for pattern, then in self.patterns[state]:
            if all(c in ("X", "1" if name in on else "0") for name, c in zip(self.names, pattern)):
                return then
        raise SystemExit(f"state {state} has no transition for {on}")


def rounds_of(signals):
    """Every round as its numbers and the variables that are on."""
    inputs, outputs = signals
    for x, y in itertools.product(range(1 << len(inputs)), range(1 << len(outputs))):
        names = [name for k, name in enumerate(inputs) if x >> k & 1] + [name for k, name in enumerate(outputs) if y >> k & 1]
        yield x, y, {"S_" + name for name in names}


def walk(signals, game, automaton):
    """Every pair of a position and a state that a row of rounds leads to. The first letter of MONA's is no round."""
    start, moves = game
    rounds = list(rounds_of(signals))
    met = [(start, automaton.after(0, set()))]
    seen = set(met)
    for position, state in met:
        for x, y, on in rounds:
            then = moves[position, x, y], automaton.after(state, on)
            if (then[0] == LOST) != (then[1] in automaton.accepting):
                raise SystemExit(f"they differ: position {position}, state {state}, input {x}, output {y}: {then}")
            if then[0] != LOST and then not in seen:
                seen.add(then)
                met.append(then)
    return len(met)


def main():
    if len(sys.argv) != 4:
        raise SystemExit("usage: bench/agree.py SIGNALS GAME AUTOMATON")
    named, shown, printed = [pathlib.Path(name).read_text() for name in sys.argv[1:]]
    print(walk(ltl.read_signals(named), read_game(shown), Automaton(printed)))


if __name__ == "__main__":
    main()
