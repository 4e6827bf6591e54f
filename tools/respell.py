#!/usr/bin/env python3
"""Brings the definitions and lemmas of this repository to one spelling: types and modules in camel case, all else in snake case.

usage: python3 tools/respell.py [--list]      at the top of the repository, once, after the kit's own port.py

It renames only what the repository's own specs/ and proofs/ declare, and rewrites each place that names it: in .antt
files, in the clauses of .rt files, and in comments that name it. Names from Rust code, names that Rattle makes (goals,
labels, paths below `c.`), names of the kit's library, and texts in quotes are left. --list prints the renames and writes nothing.
"""

import os
import re
import sys

NAME = r"[^\s(){}\[\].,;:«»\"|\\@]+"
TOKEN = re.compile(NAME)
DECL = re.compile(r"^(\s*)((?:(?:pattern|unfoldable|abbrev|pub|axiom|data|record)\s+)*)(" + NAME + r")((?:\s*[({].*?[)}])?)\s*:(?!:)\s*(.*)$")
# names that would fall together with a word of the kit's library
APART = {"bit-and": "bit_of_and", "bit-or": "bit_of_or", "Holds-at": "HoldsNumbered"}
WORDS = {"use", "let", "module", "in", "where", "unfolding", "mod", "elim", "import"}


def texts(root):
    for folder, dirs, files in os.walk(os.path.join(root, "crates")):
        dirs[:] = sorted(d for d in dirs if d not in ("out", ".git", "data", "must-fail"))
        for f in sorted(files):
            if f.endswith((".rt", ".antt")):
                yield os.path.join(folder, f)


def is_goal_file(path):
    return os.path.basename(path) in ("Answers.antt", "Invariants.antt", "Proof.antt")


def signature(lines, n):
    """The whole type of the declaration at line n, with the lines that go on below it."""
    got = [lines[n]]
    indent = len(lines[n]) - len(lines[n].lstrip())
    for l in lines[n + 1:]:
        if not l.strip() or l.strip().startswith("--") or len(l) - len(l.lstrip()) <= indent:
            break
        got.append(l)
    return " ".join(x.strip() for x in got)


def result_is_type(sig):
    sig = re.sub(r"\s+", " ", sig)
    sig = re.sub(r" where$", "", sig)
    return re.search(r"(?:→|:|>) Type \S+$", sig) is not None


def camel(name):
    parts = re.split(r"[-_]", name)
    return "".join(p[:1].upper() + p[1:] for p in parts)


def snake(name):
    return name.replace("-", "_")


def declared(root):
    """name -> set of new names, of all that the repository declares and that is spelled otherwise."""
    new, kept = {}, set()
    for path in texts(root):
        if not path.endswith(".antt"):
            continue
        lines = open(path, encoding="utf-8").read().split("\n")
        for n, line in enumerate(lines):
            if line.lstrip().startswith("--"):
                continue
            m = DECL.match(line)
            if not m:
                continue
            name, marks = m[3], m[2]
            if name in WORDS or line.lstrip().startswith(("use ", "let ", "(", "λ", "|")):
                continue
            if is_goal_file(path) and ("goal." in line or "goal" == m[5].strip()):
                continue
            kind = "data" in marks.split() or "record" in marks.split() or result_is_type(signature(lines, n))
            want = camel(name) if kind and name[:1].isalpha() and name[:1].isupper() else snake(name)
            want = APART.get(name, want)
            if "′" in want:
                want = want.replace("′", "'")
            if want != name and re.fullmatch(r"[A-Za-zℕ≤≡0-9_'*+-]+", name):
                new.setdefault(name, set()).add(want)
            else:
                kept.add(name)
    return new, kept


def foreign(text):
    """The names that a file takes from the kit's library or from what Rattle makes: they are not this repository's."""
    out = set()
    for m in re.finditer(r"use\s+([^\s;{]+?)\.\{([^}]*)\}", text):
        path = m[1].split(".")
        own = path[0] == "Rattle" and len(path) > 1 and path[1] in CRATES
        made = "Goals" in path or "Given" in path or "TheVariants" in path
        if not own or made:
            out |= {part.split()[0] for part in m[2].split(",") if part.split()}
    return out


def swap(line, token, new, skip, goal):
    """The new name for a token of a line, or the token: names of goals, texts in quotes and foreign names stay."""
    name, before = token[0], line[:token.start()]
    if name not in new or name in skip or before.count('"') % 2:
        return name
    head = re.search(r"(" + NAME + r")(?:\." + NAME + r")*\.$", before)
    if goal and head and head[1] in ("goal", "Goals", "Given"):
        return name
    return new[name]


def turned(text, new, path):
    skip, goal = foreign(text), is_goal_file(path)
    mark = "--" if path.endswith(".antt") else "//"
    out = []
    for line in text.split("\n"):
        code, sep, said = line.partition(mark)
        out.append(sep.join(TOKEN.sub(lambda t: swap(part, t, new, skip, goal), part) for part in (code, said)) if sep
                   else TOKEN.sub(lambda t: swap(line, t, new, skip, goal), line))
    return "\n".join(out)


def main(argv):
    root = "."
    global CRATES
    if not os.path.isdir("crates"):
        raise SystemExit("tools/respell.py: there is no crates/ here: run it at the top of the repository")
    CRATES = {c for c in os.listdir("crates") if os.path.isdir(os.path.join("crates", c, "src"))}
    found, kept = declared(root)
    new = {}
    for name, wants in sorted(found.items()):
        if len(wants) > 1:
            print(f"two spellings for {name}: {sorted(wants)}")
        new[name] = sorted(wants)[0]
    back = {}
    for a, b in new.items():
        back.setdefault(b, set()).add(a)
    for b, many in sorted(back.items()):
        if len(many) > 1 or b in kept:
            print(f"fall together: {b}: {sorted(many)}{' and ' + b if b in kept else ''}")
    if "--list" in argv:
        for a, b in sorted(new.items()):
            print(a, b)
        return 0
    for path in texts(root):
        text = open(path, encoding="utf-8").read()
        after = turned(text, new, path)
        if after != text:
            open(path, "w", encoding="utf-8").write(after)
    return 0


if __name__ == "__main__":
    raise SystemExit(main(sys.argv[1:]))
