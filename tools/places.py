#!/usr/bin/env python3
"""Counts the places of the older forms in crates/*/src, point by point of docs/DESIGN-PASS.md.

    tools/places.py [--at COMMIT] [--list] [POINT]

prints how many places each point has; --list prints them, one a line; --at counts those of a commit."""
import argparse
import collections
import re
import subprocess

# Unit variants that say "nothing" or "refused", and variants that say "there" or "fine".
NONE = {"Nothing", "Absent", "End", "Neither", "Wrong", "Stray", "Full", "TooLong", "Unended", "Undeclared", "Malformed"}
SOME = {"Fine", "Done", "Found"}
FAULTS = re.compile(r"^(fault|found|number|failed|early|late)$")


def sources(at):
    if at:
        names = subprocess.run(["git", "ls-tree", "-r", "--name-only", at, "crates"], capture_output=True, text=True, check=True)
        read = lambda p: subprocess.run(["git", "show", f"{at}:{p}"], capture_output=True, text=True, check=True).stdout
    else:
        names = subprocess.run(["git", "ls-files", "crates"], capture_output=True, text=True, check=True)
        read = lambda p: open(p).read()
    for p in names.stdout.split():
        if re.fullmatch(r"crates/\w+/src/.*\.rt", p):
            yield p, read(p)


def uncommented(text):
    return re.sub(r"//[^\n]*", "", text)


def line(text, at):
    return text.count("\n", 0, at) + 1


def blocks(text, head):
    """Each match of head with what stands between its braces."""
    for m in re.finditer(head, text):
        depth, i = 0, text.index("{", m.end() - 1)
        for j in range(i, len(text)):
            depth += {"{": 1, "}": -1}.get(text[j], 0)
            if depth == 0:
                yield m, text[i + 1 : j]
                break


def functions(text):
    """Each function: name, parameters, result, clauses, body."""
    for m in re.finditer(r"^( *)(?:pub(?:\(crate\))? )?(?:extern \"C\" )?fn (\w+)(?:<[^>]*>)?\(", text, re.M):
        depth, j = 1, m.end()
        while depth:
            depth += {"(": 1, ")": -1}.get(text[j], 0)
            j += 1
        indent = m.group(1)
        end = text.find("\n" + indent + "}", j)
        k = text.find("\n" + indent + "{\n", j)
        inline = re.match(r"[^\n]*\{$", text[j:].split("\n", 1)[0])
        if inline:
            head, body = text[j:].split("\n", 1)[0], text[j + len(text[j:].split("\n", 1)[0]) : end]
        else:
            head, body = text[j:k], text[k:end]
        yield m.start(2), m.group(2), text[m.end() : j - 1], head, body


def point1(files):
    for p, t in files:
        for m, body in blocks(t, r"pub enum (\w+)[^{]*\{|\benum (\w+)[^{]*\{"):
            name = m.group(1) or m.group(2)
            variants = re.findall(r"^    (\w+)(\s*[({])?", body, re.M)
            unit = {v for v, pay in variants if not pay}
            pays = {v for v, pay in variants if pay}
            if (unit & NONE and (pays or "Fine" in unit)) or (pays | unit) & SOME:
                yield p, line(t, m.start()), f"enum {name}"
        for m, body in blocks(t, r"struct (\w+)[^{;]*\{"):
            for f, ty in re.findall(r"^    (?:pub )?(\w+): ([^,\n]+),", body, re.M):
                if FAULTS.match(f) and ty in ("u32", "Refusal", "bool") or (f == "kind" and ty.startswith("u")) or (f == "verdict"):
                    yield p, line(t, m.start()), f"struct {m.group(1)}.{f}: {ty}"
        for at, name, params, head, body in functions(t):
            if re.search(r"-> u(8|16|32)\b", head) and re.search(r"(_fault|^fault|_number|^missing|_kind|^letter|^digit|^first_fault)$", name):
                yield p, line(t, at), f"fn {name} gives a number"
        for m in re.finditer(r"^(?:    )?(?:pub )?const ((?:KIND|IN)_\w+|NO_DIGIT|WRONG_KIND|TOO_MANY|MISSING|OUT_OF_RANGE|NO_TABLE|NOTHING|BYTES|ITEMS): u", t, re.M):
            yield p, line(t, m.start()), f"const {m.group(1)}"


def point2(files):
    """Functions of one file whose bodies are alike but for names, numbers and types; plain structs with like fields."""
    fields = collections.defaultdict(list)
    for p, t in files:
        if "/host" in p:
            continue
        for m, body in blocks(t, r"struct (\w+) \{"):
            types = tuple(ty for ty in re.findall(r"^    (?:pub )?\w+: ([^\n]+),", uncommented(body), re.M))
            if len(types) >= 2:
                fields[types].append((p, line(t, m.start()), m.group(1)))
    for like in fields.values():
        for p, at, name in like[1:]:
            yield p, at, f"struct {name} like {like[0][2]}"
    for p, t in files:
        if "/host_c/" in p:
            continue
        shapes = collections.defaultdict(list)
        for at, name, params, head, body in functions(uncommented(t)):
            shape = re.sub(r"\b[A-Za-z_]\w*\b", lambda m: m.group() if m.group() in KEYWORDS else "x", params + " " + body)
            shape = re.sub(r"b'(\\.|[^'])'|b\"[^\"]*\"|0x[0-9a-f]+|\d+", "0", shape)
            shape = re.sub(r"\s+", " ", shape)
            if body.count("\n") >= 3:
                shapes[shape].append((at, name))
        for same in shapes.values():
            for at, name in same[1:]:
                yield p, line(uncommented(t), at), f"fn {name} like {same[0][1]}"


KEYWORDS = set("if else match while for in return let mut loop break continue true false as fn".split())


def point3(files):
    for p, t in files:
        for m in re.finditer(r"^ *(?:'\w+: )?(while|loop)\b[^\n]*\{", uncommented(t), re.M):
            yield p, line(uncommented(t), m.start()), m.group().strip()


def point4(files):
    for p, t in files:
        t = uncommented(t)
        for at, name, params, head, body in functions(t):
            body = body.strip().lstrip("{").strip()
            m = re.match(r"match [^{]*\{(.*)\}$", body, re.S)
            if m:
                arms = re.findall(r"=>\s*(.*?),?\s*\n", m.group(1))
                if arms and all(re.fullmatch(r"(true|false|\d+|[a-z]\w*|\w+::\w+|match \w+ \{|[\w.]+ [<=!]=? [\w.]+)", a) for a in arms):
                    yield p, line(t, at), f"fn {name}: a match of literals"
            elif re.fullmatch(r"if [^{]*\{\s*return (true|false|0|1);\s*\}\s*(true|false|0|1|[^;{}]*)", body, re.S):
                yield p, line(t, at), f"fn {name}: a test returned by hand"
            elif re.fullmatch(r"(if [^{]*\{\s*return (true|false);\s*\}\s*)+[^;{}]*", body, re.S):
                yield p, line(t, at), f"fn {name}: tests returned by hand"


def point5(files):
    facts, groups = collections.defaultdict(list), collections.defaultdict(list)
    for p, t in files:
        if "/host_c/" in p:
            continue
        for at, name, params, head, body in functions(t):
            for r in re.findall(r"requires(?: \w+)? \{ (.*?) \}\n", head, re.S):
                for fact in r.split(" × "):
                    facts[re.sub(r"\s+", " ", fact)].append((p, line(t, at), name))
            names = [re.sub(r"\s+", " ", x.strip()) for x in re.split(r",(?![^<\[(]*[>\])])", params) if x.strip()]
            for i in range(len(names) - 2):
                groups[", ".join(names[i : i + 3])].append((p, line(t, at), name))
    for fact, places in facts.items():
        if len(places) >= 3:
            yield places[0][0], places[0][1], f"requires {fact}: {len(places)} functions"
    for group, places in groups.items():
        if len(places) >= 3:
            yield places[0][0], places[0][1], f"({group}): {len(places)} functions"


def point6(files):
    for p, t in files:
        if "/host_c/" in p:
            continue
        for at, name, params, head, body in functions(t):
            flat = re.sub(r"\s+", " ", params)
            if re.search(r": \[\w+; \w+\], count: usize", flat) or re.search(r": \[\w+; \w+\],", flat) and "count" in flat:
                yield p, line(t, at), f"fn {name}: an array and how much of it counts"
            elif re.search(r"out: &mut \[u8\], at: usize", flat):
                yield p, line(t, at), f"fn {name}: an output and a place"
        for m, body in blocks(t, r"struct (\w+)[^{;]*\{"):
            if re.search(r"\b(count|n): usize", body) and re.search(r": \[\w+; [\w:]+\]", body):
                yield p, line(t, m.start()), f"struct {m.group(1)}: an array and how much of it counts"


def point7(files):
    for p, t in files:
        t = uncommented(t)
        for m in re.finditer(r"match (way|step_kind)\b", t):
            yield p, line(t, m.start()), m.group()
        for at, name, params, head, body in functions(t):
            if re.search(r"\b(cut|begun|app|way): (bool|u32|Way)\b", params) and "/host" not in p:
                yield p, line(t, at), f"fn {name}: a parameter that picks the step"


POINTS = [point1, point2, point3, point4, point5, point6, point7]


def main():
    a = argparse.ArgumentParser(description=__doc__, formatter_class=argparse.RawDescriptionHelpFormatter)
    a.add_argument("--at", metavar="COMMIT")
    a.add_argument("--list", action="store_true")
    a.add_argument("point", nargs="?", type=int)
    args = a.parse_args()
    files = list(sources(args.at))
    for n, point in enumerate(POINTS, 1):
        if args.point in (None, n):
            found = list(point(files))
            print(f"point {n}: {len(found)} places")
            if args.list:
                for p, at, what in found:
                    print(f"  {p}:{at}: {what}")


if __name__ == "__main__":
    main()
