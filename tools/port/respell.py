#!/usr/bin/env python3
"""Respells the repository's own definitions and lemmas: words in snake case, a dash only where it joins two names.

usage: python3 tools/port/respell.py          at the top, once, after the kit's port.py
       python3 tools/port/respell.py --map    prints the old and the new names, and changes nothing

A word is in snake case. A dash stays where each side of it is itself the name of a definition, as in `length-pasted`; elsewhere it
becomes `_`. Constructors and fields have no dash. Types and modules stay. Walks of the code (Proof.antt) and names that a library or
the check declares are left alone.
"""
import collections
import os
import re
import sys

ROOT = os.path.join(os.path.dirname(os.path.realpath(__file__)), "..", "..")
CRATES = os.path.join(ROOT, "crates")
TOKEN = re.compile(r"[^\s(){}\[\];,.\"⌜⌝`:]+")
DECLARED = re.compile(r"^(\s*)(?:(?:pub|abbrev|unfoldable) )*((?:[^\s(){}:;,.=]+ )*?[^\s(){}:;,.=]+) :(?: |$)")
HEAD = re.compile(r"^(\s*)(?:(?:pub|abbrev|unfoldable) )*(data|record) (?:pub )?([^\s:]+)")
# names of the library that lemmas are about
LIBRARY = set("""length take drop map replicate set get_or append add mul sub div mod eqb leb ltb cond not_b sum fold zip reverse
slice_index slice_set slice_get pow min max all any concat filter count_by range suc zero nth last init lookup""".split())


def files(kinds):
    for folder, dirs, names in os.walk(CRATES):
        dirs[:] = sorted(d for d in dirs if d != "out")
        for n in sorted(names):
            if n.endswith(kinds):
                yield os.path.join(folder, n)


def is_walk(path):
    return path.endswith("/Proof.antt") or "/Proof/" in path


def read(path):
    with open(path, encoding="utf-8") as f:
        return f.read()


def snake(word):
    word = re.sub(r"([A-Z]+)([A-Z][a-z])", r"\1_\2", word)
    return re.sub(r"(?<=[a-z0-9'])([A-Z])", r"_\1", word).lower()


def declared():
    """Own names: declared ones, those of them that are constructors or fields, and names that an import brings from elsewhere."""
    names, members, outside = set(), set(), set()
    for path in files(".antt"):
        inside = None
        text = read(path)
        for line in text.splitlines():
            if line.lstrip().startswith("--") or not line.strip():
                continue
            head = HEAD.match(line)
            if head:
                inside = len(head.group(1))
                continue
            indent = len(line) - len(line.lstrip())
            if inside is not None and indent <= inside:
                inside = None
            m = DECLARED.match(line)
            if m and not is_walk(path):
                found = [n for n in m.group(2).split(" ") if n not in ("let", "where", "in", "=", "|")]
                names.update(found)
                if inside is not None:
                    members.update(found)
        for m in re.finditer(r"^use ([\w.·]+)\.\{([^}]*)\}", text, re.M):
            if not re.search(r"(^|\.)(Rattle\.(?!std)|own)", m.group(1)) or ".declared." in m.group(1):
                outside.update(w.split(" as ")[0].strip() for w in m.group(2).split(","))
    return names, members, outside


def bases(names):
    """Single words that a lemma's name may be made of: the names of definitions."""
    single = {n for n in names if "-" not in n}
    return single | {snake(n) for n in single} | LIBRARY


def respelt(name, known, member):
    parts = name.split("-")
    new = [p if p[:1].isupper() else snake(p) for p in parts]
    if member:
        return "_".join(new)
    out, so_far = new[0], new[0]
    for p in new[1:]:
        if not p:
            return name
        joins = so_far in known or so_far[:1].isupper()
        if joins and (p in known or p[:1].isupper()):
            out, so_far = out + "-" + p, p
        else:
            out, so_far = out + "_" + p, so_far + "_" + p
    return out


def table():
    names, members, outside = declared()
    known = bases(names - outside)
    new = {}
    for n in sorted(names - outside):
        if n[:1].isupper() or not re.match(r"[a-zA-Z]", n):
            continue
        to = respelt(n, known, n in members)
        if to != n:
            new[n] = to
    taken = collections.defaultdict(list)
    for n in sorted(names):
        taken[new.get(n, n)].append(n)
    # names that fall together: a definition of specs/ keeps the spelling, then what has it already; a lemma gets `_lem`
    for to, olds in taken.items():
        if len(olds) > 1:
            humps = [n for n in olds if snake(n) != n and "-" not in n]
            first = (humps + [n for n in olds if n not in new] + olds)[0]
            for n in olds:
                if n != first:
                    new[n] = to + "_lem"
    return {a: b for a, b in new.items() if b not in outside}


def turn_tokens(text, new):
    """In an import what stands between the braces alone; a lemma that gets `_lem` is no field."""

    def turn(m):
        to = new.get(m.group(0), m.group(0))
        return m.group(0) if to.endswith("_lem") and m.string[m.start() - 1 : m.start()] == "." else to

    path = re.match(r"\s*(pub )?(ghost )?use [^{]*", text)
    at = path.end() if path else 0
    return text[:at] + TOKEN.sub(turn, text[at:])


def turn_antt(text, new, walk):
    camel = {a: b for a, b in new.items() if re.search(r"[a-z0-9][A-Z]", a) and "-" not in a}
    out = []
    for line in text.split("\n"):
        code, sep, rest = line, "", ""
        at = re.search(r"(^|\s)--(?=\s|-|$)", line)
        if at:
            code, rest = line[: at.start()], line[at.start() :]
        out.append(turn_tokens(code, new) + turn_tokens(rest, camel))
    return "\n".join(out)


def turn_rt(text, new):
    """Imports and clauses; in comments the names in camel case."""
    camel = {a: b for a, b in new.items() if re.search(r"[a-z0-9][A-Z]", a) and "-" not in a}
    out, inside = [], 0
    for line in text.split("\n"):
        bare = line.lstrip()
        if bare.startswith("//"):
            out.append(turn_tokens(line, camel))
            continue
        if inside or re.match(r"(pub )?(ghost|requires|ensures|abbrev|invariant)\b", bare) or bare.startswith(("requires*", "ensures*")):
            inside += line.count("{") - line.count("}")
            out.append(turn_tokens(line, new))
            continue
        out.append(line)
    return "\n".join(out)


def main(argv):
    # the names once found, so that each commit gets the same: what a name may be made of depends on the others
    kept = os.path.join(os.path.dirname(os.path.realpath(__file__)), "names.txt")
    new = dict(l.split() for l in open(kept, encoding="utf-8")) if os.path.exists(kept) else table()
    if argv == ["--map"]:
        for a, b in sorted(new.items()):
            print(a, b)
        return
    for path in files((".antt", ".rt")):
        old = read(path)
        text = turn_rt(old, new) if path.endswith(".rt") else turn_antt(old, new, is_walk(path))
        if text != old:
            with open(path, "w", encoding="utf-8") as f:
                f.write(text)


main(sys.argv[1:])
