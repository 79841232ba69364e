#!/usr/bin/env python3
"""Sets public signatures with their clauses, types, definitions and theorems of crates/ beside those of a commit.

    tools/changed.py COMMIT

prints, as Markdown, each that changed, with its old (-) and new (+) lines, and each that is gone (-) or new (+)."""
import collections
import difflib
import re
import subprocess
import sys


def git(*args):
    return subprocess.run(["git", *args], capture_output=True, text=True, check=True).stdout


def old_files(at):
    for p in git("ls-tree", "-r", "--name-only", at, "crates").split():
        if p.endswith((".rt", ".antt")) and ("/src/" in p or "/specs/" in p):
            yield p, git("show", f"{at}:{p}")


def new_files():
    for p in git("ls-files", "crates").split():
        if p.endswith((".rt", ".antt")) and ("/src/" in p or "/specs/" in p):
            yield p, open(p).read()


def items_of_code(text):
    """Public functions with their clauses, public types, constants and trait implementations, by name."""
    text = re.sub(r"^ *//[^\n]*\n", "", text, flags=re.M)
    owner = ""
    for m in re.finditer(r"^impl\b([^{]*)\{|^( *)(pub (?:extern \"C\" )?(fn|struct|enum|const) (\w+))", text, re.M):
        if m.group(1) is not None:
            head = m.group(1).strip()
            owner = re.sub(r"<[^>]*>", "", head).split(" for ")[-1].strip() + "::"
            if " for " in head:
                body = text[m.start() : text.index("\n}", m.start()) + 2]
                yield "impl " + head, re.sub(r"\{\n        .*?\n    \}", "{ .. }", body, flags=re.S)
            continue
        indent, kind, name = m.group(2), m.group(4), m.group(5)
        prefix = owner if indent else ""
        rest = text[m.start() :]
        if kind == "fn":
            end = re.search(r"\n" + indent + r"\{\n|\{\n", rest)
            yield f"fn {prefix}{name}", rest[: end.start()]
        elif kind == "const":
            yield f"const {prefix}{name}", rest[: rest.index(";") + 1]
        else:
            brace = re.match(r"[^\n]*\{\n.*?\n" + indent + r"\}|[^\n]*;", rest, re.S)
            yield f"{kind} {name}", brace.group()


def items_of_specs(text):
    """Definitions whole, and of a law its statement, by name."""
    lines = text.split("\n")
    i = 0
    while i < len(lines):
        m = re.match(r"^( *)(?:(abbrev|unfoldable) )?pub (?:(record|data|ruleset) )?([^\s:({]+)", lines[i])
        if not m or lines[i].lstrip().startswith(("pub use", "pub mod")) or " pub use" in lines[i]:
            i += 1
            continue
        indent, word, kind, name = m.groups()
        j = i + 1
        if word or kind:
            while j < len(lines) and lines[j].strip() and (len(lines[j]) - len(lines[j].lstrip()) > len(indent) or lines[j].startswith(indent + name)):
                j += 1
        else:
            while j < len(lines) and len(lines[j]) - len(lines[j].lstrip()) > len(indent) and lines[j].strip():
                j += 1
        yield name, "\n".join(lines[i:j])
        i = j


def table(files):
    out = collections.OrderedDict()
    for p, text in files:
        crate = p.split("/")[1]
        module = re.sub(r".*/(src|specs)/(.*)\.(rt|antt)$", r"\2", p)
        items = items_of_code(text) if p.endswith(".rt") else items_of_specs(text)
        for name, body in items:
            body = "\n".join(x.rstrip() for x in body.rstrip().split("\n"))
            indent = len(body) - len(body.lstrip())
            body = "\n".join(x[indent:] if x[:indent].strip() == "" else x for x in body.split("\n"))
            key = (crate, "code" if p.endswith(".rt") else "specs", name)
            while key in out:
                key = (*key[:2], key[2] + "'")
            out[key] = (module, body)
    return out


def main():
    at = sys.argv[1]
    old, new = table(old_files(at)), table(new_files())
    for kind, title in (("code", "Signatures, clauses and types"), ("specs", "Definitions and theorems")):
        print(f"### {title}\n")
        crates = list(dict.fromkeys(k[0] for k in [*old, *new]))
        for crate in crates:
            shown = []
            keys = [k for k in dict.fromkeys([*old, *new]) if k[0] == crate and k[1] == kind]
            for k in keys:
                a, b = old.get(k, ("", ""))[1], new.get(k, ("", ""))[1]
                if re.sub(r"\s+", " ", a) == re.sub(r"\s+", " ", b):
                    continue
                x, y = a.split("\n") if a else [], b.split("\n") if b else []
                for how, i, j, m, n in difflib.SequenceMatcher(None, x, y, autojunk=False).get_opcodes():
                    shown += ["  " + z for z in x[i:j]] if how == "equal" else ["- " + z for z in x[i:j]] + ["+ " + z for z in y[m:n]]
                shown.append("")
            if shown:
                print(f"`{crate}`:\n\n```diff")
                print("\n".join(shown).rstrip())
                print("```\n")


if __name__ == "__main__":
    main()
