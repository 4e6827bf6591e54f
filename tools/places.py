#!/usr/bin/env python3
"""Lists, point by point, the places in crates/*/src where an older form may stand.

usage: tools/places.py [POINT..]     run at the top of a checkout; POINT is a number from 1 to 8; without any, all eight

A line is a place to look at, and no verdict: docs/DESIGN-PASS.md says of each what was done.
"""
import collections
import glob
import re
import sys

FILES = sorted(glob.glob("crates/*/src/**/*.rt", recursive=True))
TEXTS = {f: open(f).read() for f in FILES}
if not FILES:
    raise SystemExit("tools/places.py: there is no crates/*/src here: run it at the top of a checkout")


def code_lines():
    """Each line of code with its file, number and function, without the tests."""
    for f in FILES:
        if f.endswith("tests.rt") or "/cases/" in f:
            continue
        function = "-"
        for number, line in enumerate(TEXTS[f].split("#[cfg(test)]\nmod tests {")[0].split("\n"), 1):
            named = re.search(r"\bfn (\w+)", line)
            if named:
                function = named.group(1)
            yield f, number, function, line


def by_line(patterns):
    for f, number, function, line in code_lines():
        for what, pattern in patterns:
            if "// Kept: " not in line and re.search(pattern, line):
                yield f"{f}:{number} {function}: {what}: {line.strip()}"
                break


def option_shapes():
    yield from by_line(
        [
            ("hands an error on", r"Err\((e|refusal|error)\) => (return )?(Err\(|\(stage, Err)"),
            ("hands nothing on", r"None => None|Some\(\w+\) => Some\("),
            ("turns a found fault into a refusal", r"if let Some\(\w+\) = .*(fault|repeat|missed)|Some\(r\) => Err"),
            ("numbers for kinds", r"\bkind: u8,|flag_told\(.*\) [!=]= |flag == "),
            ("own shape of Option or Result", r"enum (Known|Maybe|Outcome)\b|struct Failed;"),
            ("a number that says nothing", r"fn \w+_stand\(\) -> u8"),
            ("a number that stands for none", r"^\s*// .*(\b0 (where|for) (it is lost|lost|the empty|the numbers|it has no|there are more)|65 stands for)"),
        ]
    )


def functions(text):
    """Name, signature and body of each function."""
    for found in re.finditer(r"\bfn (\w+)", text):
        depth, i = 0, found.start()
        brace = re.search(r"\n\s*\{\n|\) (->[^{;]*)?\{\n", text[i:])
        if not brace:
            continue
        start = i + brace.end() - 2
        for j in range(start, len(text)):
            depth += {"{": 1, "}": -1}.get(text[j], 0)
            if depth == 0:
                yield found.group(1), text[i:start], text[start : j + 1]
                break


WORDS = set("fn let mut if else match for in while loop return self Self Some None Ok Err true false as".split())


def twins():
    """Groups of functions that are alike but for names, types and numbers."""
    groups = collections.defaultdict(list)
    for f in FILES:
        if f.endswith("tests.rt") or "/cases/" in f:
            continue
        for name, _, body in functions(TEXTS[f].split("#[cfg(test)]\nmod tests {")[0]):
            tokens = re.findall(r"[A-Za-z_]\w*|\d\w*|\S", re.sub(r"//.*", "", body))
            if len(tokens) < 16:
                continue
            shape = " ".join(
                t if t in WORDS or not re.match(r"\w", t) else ("0" if t[0].isdigit() else "_") for t in tokens
            )
            groups[shape].append(f"{f} {name}")
    for members in groups.values():
        if len(members) > 1:
            yield " ~ ".join(members)


def index_loops():
    """Loops with an index or a place of their own, over a range that is cast, or that only search."""
    lines = list(code_lines())
    for k, (f, number, function, line) in enumerate(lines):
        body = " ".join(l for _, _, _, l in lines[k + 1 : k + 7])
        ranged = re.match(r"\s*for (\w+) in [^&]*\.\.", line)
        what = ""
        if ranged and ("+ 1 {" in line or re.search(r"\b" + ranged.group(1) + r" as u", body)):
            what = "casts its number"
        elif ranged and re.search(r"\[" + ranged.group(1) + r"( as \w+)?\]", body):
            what = "indexes"
        elif ranged and re.search(r"\{ *return (true|false|Some|None)", body):
            what = "searches"
        elif re.match(r"\s*for \(i, \w+\) in .*enumerate", line):
            what = "enumerates to index"
        elif re.match(r"\s*while (?!let)", line):
            what = "counts by hand"
        elif re.match(r"\s*loop \{", line):
            what = "has no end of its own"
        elif re.match(r"\s*let mut (at|i) = ", line):
            what = "walks with a place of its own"
        if what:
            yield f"{f}:{number} {function}: {what}: {line.strip()}"


def by_hand():
    """Printing without Display or a derive, comparing case by case or field by field, converting case by case."""
    lines = list(code_lines())
    for k, (f, number, function, line) in enumerate(lines):
        below = lines[k + 1][3] if k + 1 < len(lines) else ""
        what = ""
        if re.search(r"fmt::Display for (Misuse|Fault)|fn (write_count|sentence_of|name_of|line_of|length_of)\b", line):
            what = "prints"
        elif re.search(r"fn (at_most|one_more|is_zero|key_of)\b", line):
            what = "compares"
        elif re.search(r"fn same_as\(.*\{$", line) and below.strip() not in ("self == other",):
            what = "compares"
        elif re.search(r"impl(<.*>)? From<|fn (status_of|rounds_of|number_of|told_\w+)\b|pub fn of\(run", line):
            what = "converts"
        elif re.search(r"fn (is_duty|is_a_duty)\b", line) and "matches!" not in " ".join(l for *_, l in lines[k : k + 4]):
            what = "sorts cases into yes and no"
        if what and "// Kept: " not in line:
            yield f"{f}:{number} {function}: {what}: {line.strip()}"


def facts():
    """Facts that three or more contracts ask for, and parameters that travel together through three or more functions."""
    asked = collections.defaultdict(set)
    for f, _, function, line in code_lines():
        clause = re.match(r"\s*requires\b\s*\w*\s*\{(.*)\}\s*$", line)
        for fact in re.split("×", clause.group(1)) if clause else []:
            fact = re.sub(r"\.(now|old)\b", "", fact).strip("() ")
            if fact:
                asked[fact].add((f.split("/")[1], function))
    for fact, where in sorted(asked.items(), key=lambda e: -len(e[1])):
        if len(where) > 2:
            yield f"{len(where)} contracts of {', '.join(sorted({c for c, _ in where}))} ask: {fact}"
    together = collections.defaultdict(set)
    for f in FILES:
        for name, signature, _ in functions(TEXTS[f]):
            inside = re.search(r"\((.*?)\)\s*(->|\n|$)", signature, re.S)
            names = re.findall(r"(?:^|,)\s*(?:mut )?_?(\w+):", inside.group(1)) if inside else []
            for k, first in enumerate(names):
                for second in names[k + 1 :]:
                    together[(f.split("/")[1], first, second)].add(name)
    for (crate, first, second), where in sorted(together.items(), key=lambda e: -len(e[1])):
        if len(where) > 2 and first != "rt":
            yield f"{len(where)} functions of {crate} take {first} and {second}"


def buffers():
    yield from by_line(
        [
            ("a length beside a buffer", r"\b(used|len|count): (usize|u8)\b|positions: &mut \[|parts: &mut \[Part\]|store: &'s mut"),
            ("parallel arrays", r"\b(numbers|owners): \[|row: Vec<Call>,|told: String,"),
            ("a slice whose length a clause fixes", r"requires .*length \w+\.(now|old) ≡ \d+"),
        ]
    )


def switches():
    yield from by_line([("runs by a stage", r"match \(?self\.stage"), ("a table of functions", r"\bfn\(|dyn |Box<")])


def proofs():
    for crate in sorted({f.split("/")[1] for f in FILES}):
        answers = [open(f).read() for f in glob.glob(f"crates/{crate}/proofs/**/Answers.antt", recursive=True)]
        lemmas = [open(f).read() for f in glob.glob(f"crates/{crate}/proofs/*.antt")]
        given = sum(len(re.findall(r"^pub ", t, re.M)) for t in answers)
        stated = sum(len(re.findall(r"^\s*(?:abbrev |pub )*[\w'≤<≢-]+ : ", t, re.M)) for t in lemmas)
        if given or stated:
            yield f"{crate}: {given} answers in {len(answers)} files, {stated} lemmas in {len(lemmas)} files"


POINTS = [option_shapes, twins, index_loops, by_hand, facts, buffers, switches, proofs]

for word in sys.argv[1:]:
    if word not in "12345678" or len(word) != 1:
        raise SystemExit(f"tools/places.py: {word} is no point: they are numbered from 1 to 8")
for k, point in enumerate(POINTS, 1):
    if sys.argv[1:] and str(k) not in sys.argv[1:]:
        continue
    rows = list(point())
    print(f"{k}. {point.__name__}: {len(rows)}")
    for row in rows:
        print(f"   {row}")
