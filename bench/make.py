#!/usr/bin/env python3
"""Makes the diagrams that are measured: make.py FOLDER writes chain.diagram, full.diagram and one.diagram there."""
import pathlib
import sys


def diagram(inputs, outputs, chains):
    """The bytes of a diagram that starts at 1; each chain is a list of moves (input, output, destination)."""
    heads, records = b"", b""
    count = 0
    for moves in chains:
        heads += (count + 1 if moves else 0).to_bytes(2, "big")
        for k, move in enumerate(moves, 1):
            count += 1
            follows = count + 1 if k < len(moves) else 0
            records += bytes([*move, 0]) + follows.to_bytes(2, "big") + bytes(2)
    assert count <= 4000 and len(chains) <= 255
    header = bytes([inputs, outputs, len(chains), 1]) + count.to_bytes(2, "big") + bytes(2)
    return header + heads + records


def chain():
    """255 positions and 4,000 records. Each of the first 250 positions moves to the next, by the last output alone, so
    that one position is dropped in each sweep and every output is tried; the other five positions move nowhere."""
    moving = [[(x, 15, p + 1) for x in reversed(range(16))] for p in range(1, 251)]
    return diagram(4, 4, moving + [[]] * 5)


def full():
    """16 positions and 4,000 records. Of 15 positions every move is drawn: the last output leads to the next position,
    the others to the last, where only the first ten inputs have moves."""
    dense = [[(x, y, p + 1 if y == 15 else 16) for x in range(16) for y in range(16)] for p in range(1, 16)]
    last = [(x, y, 16) for x in range(10) for y in range(16)]
    return diagram(4, 4, dense + [last])


def one():
    """One position, to which every round leads back: a chain of 256 records, the lowest round last."""
    return diagram(4, 4, [[(x, y, 1) for x in reversed(range(16)) for y in reversed(range(16))]])


def main():
    if len(sys.argv) != 2:
        raise SystemExit("usage: bench/make.py FOLDER")
    folder = pathlib.Path(sys.argv[1])
    (folder / "chain.diagram").write_bytes(chain())
    (folder / "full.diagram").write_bytes(full())
    (folder / "one.diagram").write_bytes(one())


if __name__ == "__main__":
    main()
