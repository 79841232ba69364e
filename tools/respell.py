#!/usr/bin/env python3
"""Brings the repository's own definitions, fields, constructors and lemmas to snake case, once, after port.py.

usage: python3 tools/respell.py [--list]    at the top of the repository; --list only prints old and new names

A name of specs/ or of a lemma file of proofs/ that begins in lower case and has a dash or an inner capital is respelled
in every .antt file, in the clauses and `ghost` lines of .rt files, in must-fail edits, and between backticks in comments
and documents. Names that Rattle makes, those of one function's proof folder alone, code and strings stay as they are.
"""

import os
import re
import subprocess
import sys

# a definition, a field, a constructor or a parameter of a module: its name stands first on the line, before ` :`
DEFINED = re.compile(r"^\s*(?:(?:pub|abbrev|unfoldable|data|record|ruleset)\s+)*([^\s(){}\[\];,.\"`]+)(?:\s+\{[^}]*\})*(?:\s+\([^)]*\))*\s*:(?:\s|$)")
RULESET = re.compile(r"^\s*(?:pub\s+)?ruleset\s+(?:pub\s+)?([^\s(){}\[\];,.\"`]+)")
NAME = re.compile(r"[^\s(){}\[\];,.\"`⌜⌝]+")
MADE = re.compile(r"(invariant|decreases|measure|loop|Need|goal)-")
# one of a library's that is imported beside ours
KEPT = {"features/proofs/equal_slow/Proof": ["not-true"], "validate/proofs/front/device_fault/Proof": ["not-true"]}
# spelled by hand: what the plain rule would make hard to read
BY_HAND = {}
# lemmas that port.py brought to snake case and that a definition would now meet, with the file that has each
MET = {
    "flag_at": ["parse/proofs/Fielding"],
    "text_at": ["parse/proofs/Fielding"],
    "flag_by": ["agree/specs/Fields", "laws/specs/Numbers", "theorems/proofs/Decoding"],
    "front_read": ["parse/proofs/Fronting"],
    "in_order": ["laws/specs/Builds", "meaning/specs/Order"],
    "list_at": ["laws/specs/Numbers"],
    "name_in": ["agree/specs/Groups"],
    "no_table": ["agree/specs/Fronts"],
    "wanted_by": ["laws/specs/Builds"],
}


def files(ending, folder="crates"):
    for d, ds, fs in os.walk(folder):
        ds[:] = sorted(x for x in ds if x not in ("out", ".git"))
        for f in sorted(fs):
            if f.endswith(ending):
                yield os.path.join(d, f)


def own_proof(path):
    """Whether a file is of one function's proof folder."""
    return re.search(r"/proofs/.*/(Proof|Answers|Invariants)\.antt$", path) is not None


def defined():
    names = set()
    for path in files(".antt"):
        if own_proof(path):
            continue
        for line in open(path, encoding="utf-8"):
            if line.lstrip().startswith("--"):
                continue
            m = DEFINED.match(line) or RULESET.match(line)
            if m:
                names.add(m.group(1))
    return names


def snake(name):
    if name in BY_HAND:
        return BY_HAND[name]
    name = name.replace("getD", "get_or")
    name = re.sub(r"(?<=[a-z0-9'])([A-Z]+)", lambda m: "_" + m.group(1).lower(), name)
    return re.sub(r"(?<=[\w'?])-(?=[\w'])", "_", name)


def taken():
    """Every word of the repository's .antt and .rt files."""
    words = set()
    for path in list(files(".antt")) + list(files(".rt")):
        for line in open(path, encoding="utf-8"):
            if not line.lstrip().startswith(("--", "//")):
                words.update(NAME.findall(line))
    return words


def mapping():
    """Definitions first; a lemma that would have a definition's or a function's name gets `_lem`."""
    names = sorted(n for n in defined() if re.fullmatch(r"[a-z][\w'?-]*", n) and not MADE.match(n) and snake(n) != n)
    to, used = {}, taken()
    for n in [n for n in names if re.search(r"[a-z0-9'][A-Z]", n)]:
        to[n] = snake(n)
    used.update(to.values())
    for n in [n for n in names if n not in to]:
        to[n] = snake(n) + ("_lem" if snake(n) in used else "")
    return to


def respell(text, to, only=None):
    """Respells the names of a piece of antt that has no strings or comments."""
    return NAME.sub(lambda m: to.get(m.group(0), m.group(0)) if only is None or only(m.group(0)) else m.group(0), text)


def quoted(text, to):
    """Respells names between backticks."""
    return re.sub(r"`[^`\n]+`", lambda m: respell_path(m.group(0), to), text)


def respell_path(text, to):
    return re.sub(r"[^\s(){}\[\];,.\"`/]+", lambda m: to.get(m.group(0), m.group(0)), text)


def antt(text, to):
    out = []
    for line in text.split("\n"):
        parts = re.split(r'("(?:[^"\\]|\\.)*")', line)
        done = []
        for i, part in enumerate(parts):
            if i % 2:
                done.append(part)
                continue
            cut = re.search(r"(?:^|(?<=\s))--(?=\s|$|-)", part)
            if cut:
                rest = part[cut.start():] + "".join(parts[i + 1:])
                done.append(respell(part[: cut.start()], to) + quoted(rest, to))
                break
            done.append(respell(part, to))
        out.append("".join(done))
    return "\n".join(out)


def clause_ends(text, start):
    """Where the braces that open at start are closed."""
    depth = 0
    for i in range(start, len(text)):
        depth += (text[i] == "{") - (text[i] == "}")
        if depth == 0:
            return i + 1
    return len(text)


CLAUSE = re.compile(r"\b(?:requires|ensures)\*?(?:\s+\w+)?\s*\{|\bghost\s+(?:invariant\s+)?\w*:?\s*\{")


def rattle(text, to):
    out, at = [], 0
    spots = [(m.start(), m.end() - 1, None) for m in CLAUSE.finditer(text)]
    spots += [(m.start(), m.start(), m.end()) for m in re.finditer(r"^ghost use [^;]*;", text, re.M)]
    for start, brace, end in sorted(spots):
        if start < at:
            continue
        end = end or clause_ends(text, brace)
        out += [quoted_comments(text[at:start], to), antt(text[start:end], to)]
        at = end
    return "".join(out) + quoted_comments(text[at:], to)


def quoted_comments(text, to):
    return re.sub(r"//[^\n]*", lambda m: quoted(m.group(0), to), text)


def edit(text, to):
    of_antt = re.search(r"^file: .*\.antt\s*$", text, re.M)
    out = []
    for line in text.split("\n"):
        m = re.match(r"(old: |new: )(.*)$", line)
        if m and (of_antt or re.match(r"\s*(requires|ensures|ghost)\b", m.group(2))):
            line = m.group(1) + antt(m.group(2), to)
        elif m is None:
            line = quoted(line, to)
        out.append(line)
    return "\n".join(out)


def of_file(path, old, to):
    """The names of one file: a lemma that a definition would meet is another one here, where this file has it or imports it."""
    more = {}
    for n, homes in MET.items():
        for home in homes:
            crate, folder, file = home.split("/")
            here = path == f"crates/{home}.antt"
            if here or re.search(rf"use Rattle\.{crate}\.{folder}\.{file}\.\{{[^}}]*(?<![\w.]){n}(?![\w])", old):
                more[n] = n + "_lem"
    kept = KEPT.get(path[len("crates/") : -len(".antt")], [])
    return {**{n: to[n] for n in to if n not in kept}, **more}


def write(path, turn, to):
    with open(path, encoding="utf-8") as f:
        old = f.read()
    new = turn(old, of_file(path, old, to))
    if new != old:
        with open(path, "w", encoding="utf-8") as f:
            f.write(new)


def main():
    to = mapping()
    if "--list" in sys.argv:
        for n in sorted(to):
            print(n, to[n])
        return
    turns = [(".antt", antt), (".rt", rattle), (".edit", edit)]
    for ending, turn in turns:
        for path in list(files(ending)):
            write(path, turn, to)
    # what names files of another's suite, and what is history, stays
    pages = [p for p in files(".md", "docs") if not p.startswith("docs/landings/") and p != "docs/TOML-TEST.md"]
    for path in pages + ["README.md"]:
        write(path, quoted, to)
    for crate in sorted(os.listdir("crates")):
        if os.path.isdir(os.path.join("crates", crate, "src")):
            subprocess.run(["rt", "fmt"], cwd=os.path.join("crates", crate), stdout=subprocess.DEVNULL)


if __name__ == "__main__":
    main()
