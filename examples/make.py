#!/usr/bin/env python3
"""Makes the diagrams of the examples from their readable sources: make.py SOURCE DIAGRAM."""
import re
import sys

LINE = re.compile(r"(\w+):([^/]*)/([^>]*)->\s*(\w+)")


def read_names(line, word):
    """The names that stand after the word."""
    first, *names = line.split()
    if first != word:
        raise SystemExit(f"expected '{word}', found '{line}'")
    return names


def read_set(words, signals):
    """All numbers that a list of signals stands for; 'none' is no signal, and 'door?' is the door either way."""
    numbers = [0]
    for word in words.split():
        if word == "none":
            continue
        name = word.removesuffix("?")
        if name not in signals:
            raise SystemExit(f"no signal is called '{name}': they are {' '.join(signals)}")
        bit = 1 << signals.index(name)
        more = [n | bit for n in numbers]
        numbers = numbers + more if word.endswith("?") else more
    return sorted(numbers)


def read_moves(lines, inputs, outputs):
    """The positions in the order in which they come first, each with its moves (input, output, name)."""
    moves = {}
    for line in lines:
        found = LINE.fullmatch(line)
        if not found:
            raise SystemExit(f"expected 'POSITION: INPUTS / OUTPUTS -> POSITION', found '{line}'")
        name, given, answer, destination = found.groups()
        own = moves.setdefault(name, [])
        for x in read_set(given, inputs):
            own.extend((x, y, destination) for y in read_set(answer, outputs))
    return moves


def diagram(text):
    """The bytes of the diagram: the header, each position's head, and the records in order."""
    lines = [line for line in (raw.split("#")[0].strip() for raw in text.splitlines()) if line]
    inputs = read_names(lines[0], "inputs")
    outputs = read_names(lines[1], "outputs")
    (start,) = read_names(lines[2], "start")
    moves = read_moves(lines[3:], inputs, outputs)
    number = {name: p for p, name in enumerate(moves, 1)}
    for name in [start, *(destination for own in moves.values() for *_, destination in own)]:
        if name not in number:
            raise SystemExit(f"no line draws a move from '{name}'")
    heads, records = b"", b""
    count = 0
    for own in moves.values():
        heads += (count + 1 if own else 0).to_bytes(2, "big")
        for k, (x, y, destination) in enumerate(own, 1):
            count += 1
            follows = count + 1 if k < len(own) else 0
            records += bytes([x, y, number[destination], 0]) + follows.to_bytes(2, "big") + bytes(2)
    header = bytes([len(inputs), len(outputs), len(moves), number[start]]) + count.to_bytes(2, "big") + bytes(2)
    return header + heads + records


def main():
    if len(sys.argv) != 3:
        raise SystemExit("usage: examples/make.py SOURCE DIAGRAM")
    source, target = sys.argv[1:]
    with open(source, encoding="ascii") as f:
        text = f.read()
    with open(target, "wb") as f:
        f.write(diagram(text))


if __name__ == "__main__":
    main()
