#!/usr/bin/env python3
"""Runs a command, as .ci/run, and prints the processor time that it took, by crate.

    tools/minutes.py COMMAND [ARGUMENT..]

The prover runs for a crate's proofs, for those of its tests and for each of its must-fail edits; which it is stands in its
arguments and its folder. Processes are looked at every third of a second, so one that ends sooner is not seen, and counts
under `else`. Other work of the prover on the machine at that time would be counted too.
"""

import os
import re
import resource
import subprocess
import sys
import time
from collections import defaultdict
from pathlib import Path

TICKS = os.sysconf("SC_CLK_TCK")
KINDS = ("proofs", "tests", "edits")


def seen(process):
    """A process of the prover: its crate, what it does for it, and its processor seconds so far."""
    words = (process / "cmdline").read_bytes().decode(errors="replace").split("\0")
    if not words[0].endswith("/rattle") or "--crate-name" not in words:
        return None
    numbers = (process / "stat").read_text().rpartition(")")[2].split()
    kind = "edits" if "/rt-edit-" in os.readlink(process / "cwd") else "tests" if "--test" in words else "proofs"
    return words[words.index("--crate-name") + 1], kind, (int(numbers[11]) + int(numbers[12])) / TICKS


def look(found):
    for process in Path("/proc").iterdir():
        if re.fullmatch(r"\d+", process.name):
            try:
                one = seen(process)
            except (OSError, IndexError):
                continue
            if one:
                found[process.name, one[0], one[1]] = one[2]


def told(found, clock, whole):
    crates = defaultdict(lambda: dict.fromkeys(KINDS, 0.0))
    for (_, crate, kind), seconds in found.items():
        crates[crate][kind] += seconds / 60
    by_prover = sum(found.values()) / 60
    print("| Crate | its proofs | of its tests | its edits | together |\n|---|---|---|---|---|")
    for crate, kinds in sorted(crates.items(), key=lambda it: -sum(it[1].values())):
        print(f"| `{crate}` | {' | '.join(f'{kinds[it]:.1f}' for it in KINDS)} | {sum(kinds.values()):.1f} |")
    print(f"| else | | | | {whole - by_prover:.1f} |\n| the whole, of processor time | | | | {whole:.1f} |")
    print(f"| the whole, by the clock | | | | {clock:.1f} |")


def main():
    if len(sys.argv) < 2 or sys.argv[1].startswith("-"):
        sys.exit(__doc__)
    found, began = {}, time.time()
    command = subprocess.Popen(sys.argv[1:])
    while command.poll() is None:
        look(found)
        time.sleep(0.3)
    spent = resource.getrusage(resource.RUSAGE_CHILDREN)
    told(found, (time.time() - began) / 60, (spent.ru_utime + spent.ru_stime) / 60)
    return command.returncode


if __name__ == "__main__":
    sys.exit(main())
