#!/usr/bin/env python3
"""Plants wrong programs, one at a time, and records what refuses each.

    planted/run.py [--only WORD] [LAYER..]               asks the prover of the wrong programs of these layers, or of all
    planted/run.py --run [--jobs N] [--cases N] [..]     asks the comparison and the tests of those not asked yet
    planted/run.py --table                               writes the tables of docs/PLANTED.md

A wrong program is an edit of one line or a few, planted/LAYER/NAME.edit, in the form of a must-fail edit (`file:`, and then
`old:` and `new:` in pairs), with two lines more: `crate:`, and `wrong:`, which says what it does wrong. An edit that the gate
tries stands in crates/CRATE/must-fail instead and names its layer in a line `layer:`.

The prover checks the crate with the edit. The comparison builds the program without a proof, and compares it with the
reference over random cases; where no case differs, the tests of `cases` and those of the crate are run. What was found
goes to planted/LAYER/found.tsv: name, what the prover said, what else found it (`-` where it was not asked).

The toolchain builds no program that is not proved, but `rt try` runs one. The comparison needs the program itself, so
`rt try` is run from a folder that has all of the toolchain but for the linker, which keeps what it links there.
"""

import argparse
import os
import re
import shutil
import subprocess
import sys
import tempfile
from concurrent.futures import ThreadPoolExecutor, as_completed
from itertools import zip_longest
from pathlib import Path

TOP = Path(__file__).resolve().parent.parent
PLANTED = TOP / "planted"
PAGE = TOP / "docs" / "PLANTED.md"
# Each layer's title, and the promises that its functions serve.
LAYERS = {
    "signals": (
        "Words and signals",
        "`next_word`, `words_stand`, `read_signals` (`outcome`, `only`), `clear`, `signal_of`, `Name::of`, `Register::enter`, `find`",
    ),
    "rules": (
        "Reading rules",
        "`read_rule` (`short`, `reads`), `reader_stands`, `texts::read`, `Part::is_duty`, `clear_parts`",
    ),
    "lists": ("Lists and progression", "`compile` (`outcome`: `Compiles`, with `Promise`; `only`)"),
    "exploring": (
        "Exploring",
        "`compile` (`outcome`, `only`), `Compiled::game` (`means`) and its impl of `Game`, `Position::unused`",
    ),
    "diagram": (
        "Diagrams",
        "`Diagram::read` (`outcome`, `only`, `served`, `refused`) and its impl of `Game`, `is_outside`, `byte_at`, `word_at`",
    ),
    "pair": ("Pairs and looked-up games", "`Pair::of` (`means`), `MoveTable::of` (`means`), and their impls of `Game`"),
    "solving": ("Solving", "`solve` (`solves`: `Solved`, `Declined`; `in_time`), `Count::is_at_most`, `is_one_more`"),
    "accepting": (
        "Accepting",
        "`accept` (`Accepted`, `Unaccepted`), `flag_told`, `count_told`, `spoiling_told`, `answer_told`, `entry_at`",
    ),
    "runs": (
        "Runs",
        "`Run` and `Round`: `start`, `open`, `consult`, `set`, `close`, `abandon`; `Questions`; `Refusal::number`, `layer`, `place`",
    ),
    "replay": (
        "Rows of calls, and the library",
        "`take` (`after`, `told`), `finish`, `replay` (`Kept`: `told`, `ended`, `follows`, `spoils`), the calls of the library (`Gives`, `RowReplayed`)",
    ),
}
# Crates whose own tests see more of them than the tests of `cases` do.
TESTED = ("words", "reader")
# Crates that the program does not reach, so that nothing is to be compared.
UNREACHED = ("calls", "cuzzambra")
LINKER = """#!/bin/sh
{kit}/toolchain/bin/ld.lld "$@" || exit $?
/bin/cp program {room}/linked && /bin/mv {room}/linked {room}/program
"""


class Edit:
    def __init__(self, path):
        self.path = path
        self.name = path.stem
        self.text = path.read_text()
        self.file = self.line("file")
        kept = path.parent.name == "must-fail"
        self.kept = kept
        self.crate = path.parent.parent.name if kept else self.line("crate")
        self.layer = self.line("layer") if kept else path.parent.name
        self.wrong = self.line("wrong")

    def line(self, word):
        found = re.search(rf"^{word}: (.*)$", self.text, re.M)
        return found[1].strip() if found else ""

    def apply(self, top):
        file = top / "crates" / self.crate / self.file
        text = file.read_text()
        lines = self.text.splitlines()
        olds = [it.removeprefix("old: ") for it in lines if it.startswith("old: ")]
        news = [it.removeprefix("new:").removeprefix(" ") for it in lines if it.startswith("new:")]
        for old, new in zip(olds, news, strict=True):
            if text.count(old) != 1:
                raise SystemExit(f"{self.path}: its old text stands {text.count(old)} times in {self.file}: {old}")
            text = text.replace(old, new)
        file.write_text(text)


def edits_of(layers, only=""):
    kept = [Edit(it) for it in sorted(TOP.glob("crates/*/must-fail/*.edit"))]
    planted = [Edit(it) for it in sorted(PLANTED.glob("*/*.edit"))]
    return [it for it in [*planted, *kept] if it.layer in layers and only in f"{it.layer}/{it.name}"]


def copied(to):
    """A copy of the tree's sources; what checks have kept in an older copy there stays."""
    for name in ("crates", "examples", "reference"):
        for file in (to / name).rglob("*"):
            if file.is_file() and "out" not in file.relative_to(to).parts:
                file.unlink()
        shutil.copytree(TOP / name, to / name, dirs_exist_ok=True, ignore=shutil.ignore_patterns("out", "target"))
    shutil.copy(TOP / "crates.txt", to)
    return to


def place_of(said, crate):
    """The function whose fact was refused, or the law that it stands on, and the fact, from the prover's first line."""
    fact = re.search(r"`(?!search`)([\w-]+)`", said)
    fact = f" `{fact[1]}`" if fact else ""
    proof = re.search(r"proofs/([\w/+]+)\.antt", said)
    if proof:
        return re.sub(r"(/\+\w+)?(/Answers|/Invariants)?$", "", proof[1]).replace("/", "::") + fact
    source = re.search(r"(src/[\w/]+\.rt):(\d+)", said)
    if not source:
        return said.removeprefix(" as it must be")[:80] or "its recursion"
    lines = (TOP / "crates" / crate / source[1]).read_text().splitlines()
    at = int(source[2])
    while lines[at - 1].lstrip().startswith("#["):  # what is said of a function with a tactic stands at the tactic
        at += 1
    above = (re.search(r"\bfn (\w+)", it) for it in reversed(lines[:at]))
    name = next((it[1] for it in above if it), "?")
    return f"{source[1].removeprefix('src/').removesuffix('.rt')}::{name}{fact}"


def prover(crate, edits):
    """What the prover says of each edit of a crate, in a copy that stays, so that the next run begins with what this one kept."""
    tree = copied(PLANTED / "out" / "tree")
    folder = tree / "crates" / crate / "must-fail"
    for it in folder.glob("*.edit"):
        it.unlink()
    folder.mkdir(exist_ok=True)
    for edit in edits:
        shutil.copy(edit.path, folder)
    ran = subprocess.run(["rt", "must-fail", crate], cwd=tree, capture_output=True, text=True, errors="replace")
    said = {}
    for line in ran.stdout.splitlines() + ran.stderr.splitlines():
        found = re.search(r"must-fail \w+/([\w.-]+)\.edit: ([A-Za-z ]+)[,:(](.*)", line)
        if found:
            refused = found[2].strip() == "refused"
            limit = " (a limit)" if "only by a limit" in line else ""
            names = " (NAMES)" if "only because a proof file" in line else ""
            said[found[1]] = place_of(found[3], crate) + limit + names if refused else found[2].strip()
    return {it.name: said.get(it.name, f"NOT TRIED {ran.stdout[-200:]}") for it in edits}


def kit_with_linker(room):
    """A folder that has all of the toolchain, and a linker that keeps what it links there."""
    kit = Path(subprocess.run(["rt", "doc"], capture_output=True, text=True, check=True).stdout.strip()).parent
    own = Path(room) / "kit"
    (own / "toolchain" / "bin").mkdir(parents=True)
    for it in kit.iterdir():
        if it.name not in ("toolchain", "bin"):
            (own / it.name).symlink_to(it)
    shutil.copytree(kit / "bin", own / "bin")
    (own / "toolchain" / "lib").symlink_to(kit / "toolchain" / "lib")
    for it in (kit / "toolchain" / "bin").iterdir():
        (own / "toolchain" / "bin" / it.name).symlink_to(it)
    linker = own / "toolchain" / "bin" / "ld.lld"
    linker.unlink()
    linker.write_text(LINKER.format(kit=kit, room=own))
    linker.chmod(0o755)
    # `rt try` also has the compiler look for names that a check would refuse, which is not asked here
    (own / "bin" / "rattle").write_text("#!/bin/sh\nexit 1\n")
    return own


def tail(said):
    lines = [it for it in said.strip().splitlines() if it.strip()]
    return lines[-1][:200] if lines else "nothing"


def compared(tree, kit, cases):
    """Whether a random case differs, or the program does not build."""
    ran = subprocess.run([kit / "bin" / "rt", "try", "--", "show", "--diagram", "data/bench.diagram"],
                         cwd=tree / "crates" / "playbook", capture_output=True, text=True, errors="replace")
    program = kit / "program"
    if not program.exists():
        return f"NOT BUILT {tail(ran.stderr)}"
    words = [TOP / "reference" / "target" / "release" / "reference", "compare", "--seed", "1", "--cases", str(cases)]
    ran = subprocess.run(["timeout", "900", *words, "--jobs", "1", "--program", program], capture_output=True, text=True,
                         errors="replace", env={**os.environ, "TMPDIR": str(kit)})
    program.unlink()
    return "" if ran.returncode == 0 else "comparison"


def tested(tree, crate):
    for name in ("cases", *[it for it in TESTED if it == crate]):
        ran = subprocess.run(["rt", "try", "--test"], cwd=tree / "crates" / name, capture_output=True, text=True,
                             errors="replace")
        if ran.returncode:
            return f"tests of {name}"
    return ""


def found_otherwise(edit, cases):
    with tempfile.TemporaryDirectory(prefix="planted-") as room:
        tree = copied(Path(room) / "tree")
        edit.apply(tree)
        differs = "" if edit.crate in UNREACHED else compared(tree, kit_with_linker(room), cases)
        return differs or tested(tree, edit.crate) or "nothing"


def rows_of(layer):
    """What was found so far, by name: what the prover said, and what else found it."""
    file = PLANTED / layer / "found.tsv"
    rows = [it.split("\t") for it in file.read_text().splitlines()] if file.exists() else []
    return {name: found for name, *found in rows}


def record(edit, judge, found):
    rows = rows_of(edit.layer)
    rows.setdefault(edit.name, ["-", "-"])[judge] = found
    alive = {it.name for it in edits_of([edit.layer])}
    text = "".join("\t".join([name, *rows[name]]) + "\n" for name in sorted(rows) if name in alive)
    (PLANTED / edit.layer).mkdir(exist_ok=True)
    (PLANTED / edit.layer / "found.tsv").write_text(text)
    print(f"{edit.layer}/{edit.name}: {found}", flush=True)


def ask_prover(edits):
    for crate in sorted({it.crate for it in edits}):
        its = [it for it in edits if it.crate == crate]
        said = prover(crate, its)
        for edit in its:
            record(edit, 0, said[edit.name])


def not_asked(edits):
    """Those that only the prover was asked of: the first of each layer, the second of each, and so on."""
    left = {}
    for edit in edits:
        if rows_of(edit.layer).get(edit.name, ["-", "-"])[1] == "-":
            left.setdefault(edit.layer, []).append(edit)
    rows = zip_longest(*left.values())
    return [edit for row in rows for edit in row if edit]


def ask_others(edits, jobs, cases):
    subprocess.run(["cargo", "build", "--quiet", "--release", "--offline", "--manifest-path",
                    TOP / "reference" / "Cargo.toml"], check=True)
    with ThreadPoolExecutor(jobs) as pool:
        asked = {pool.submit(found_otherwise, edit, cases): edit for edit in edits}
        for done in as_completed(asked):
            record(asked[done], 1, done.result())


def table(layer):
    rows = rows_of(layer)
    title, promises = LAYERS[layer]
    lines = [f"## {title}", "", f"Promises: {promises}.", ""]
    lines += ["| Wrong program | refused by the proof of | found otherwise by |", "|---|---|---|"]
    for edit in sorted(edits_of([layer]), key=lambda it: it.name):
        by_prover, otherwise = rows.get(edit.name, ["-", "-"])
        kept = " *" if edit.kept else ""
        lines.append(f"| {edit.name}{kept}: {edit.wrong} | {by_prover} | {otherwise} |")
    return lines


def counts(layer):
    """How many there are, how many the prover refuses, how many were run, and what found these."""
    rows = rows_of(layer)
    found = [rows.get(it.name, ["-", "-"]) for it in edits_of([layer])]
    refused = [it for it in found if it[0] != "-" and not it[0].startswith("NOT")]
    judged = [it[1] for it in found if it[1] != "-"]
    by_tests = [it for it in judged if it.startswith("tests")]
    return [len(found), len(refused), len(judged), judged.count("comparison"), len(by_tests), judged.count("nothing")]


def summary():
    rows = {LAYERS[it][0]: counts(it) for it in LAYERS}
    rows["all"] = [sum(it) for it in zip(*rows.values())]
    lines = ["## In all", "", "| Layer | wrong programs | refused by the prover | run | found by the comparison | by tests | by nothing |"]
    lines += ["|---|---|---|---|---|---|---|", *[f"| {name} | {' | '.join(map(str, row))} |" for name, row in rows.items()]]
    return lines


def written():
    head = PAGE.read_text().split("\n## ", 1)[0].rstrip()
    parts = [[head], summary(), *[table(it) for it in LAYERS]]
    PAGE.write_text("\n\n".join("\n".join(it) for it in parts) + "\n")


def main():
    take = argparse.ArgumentParser(description=__doc__, formatter_class=argparse.RawDescriptionHelpFormatter)
    take.add_argument("layers", nargs="*", metavar="LAYER")
    take.add_argument("--only", default="", metavar="WORD")
    take.add_argument("--run", action="store_true")
    take.add_argument("--jobs", type=int, default=1)
    take.add_argument("--cases", type=int, default=1000)
    take.add_argument("--table", action="store_true")
    arguments = take.parse_args()
    unknown = [it for it in arguments.layers if it not in LAYERS]
    if unknown:
        sys.exit(f"planted/run.py: {unknown[0]} is no layer: they are {' '.join(LAYERS)}")
    edits = edits_of(arguments.layers or list(LAYERS), arguments.only)
    if arguments.table:
        written()
    elif arguments.run:
        ask_others(not_asked(edits), arguments.jobs, arguments.cases)
    else:
        ask_prover(edits)


if __name__ == "__main__":
    main()
