#!/usr/bin/env python3
"""Counts the places in src/ that docs/DESIGN-PASS.md speaks of, point by point.

    tools/design/count.py                the counts
    tools/design/count.py --list POINT   the places of a point, as FILE:LINE what
    tools/design/count.py --at COMMIT    the same of an earlier commit

A place is what the pattern of its point finds: some are what a point means, others only look alike. The page says of each what became of it.
"""
import re
import subprocess
import sys
from collections import defaultdict

POINTS = {
    "1a": "enums of the repository's own",
    "1b": "structs with a flag among their fields",
    "1c": "numbers that stand for kinds, forms, answers or refusals",
    "2": "functions whose bodies differ only in names of functions, types and constants, or in numbers",
    "3": "loops by while or loop",
    "4a": "numbers made wider by octets::wide16, wide32, wide_index",
    "4b": "numbers cast by as",
    "4c": "equality, order and copying by functions of the repository's own, and uses of them",
    "5a": "clauses that stand in the contracts of three or more functions",
    "5b": "functions of nine or more parameters",
    "6a": "buffers with a place or a length beside them",
    "6b": "arrays of fixed length that functions make",
    "7": "parameters that choose a step: a flag, or a kind as a number",
}
KIND = re.compile(r"^\s*(?:pub(?:\(\w+\))? )?const [A-Z][A-Z_0-9]*: u(?:8|16|32) = [^;]*;")
LIMIT = re.compile(r"MOST|CEILING|MAX_|FACTOR|SLOTS|PLACE|RANGE|CELLS|MAX_VALUE|UNIT_PRINT|UNKNOWN|STOPPED|NO_VARIABLE|BYTES")


def sources(commit):
    """The files of src/ at a commit, or as they stand: name and text."""
    if commit:
        listed = subprocess.run(["git", "ls-tree", "-r", "--name-only", commit, "crates"], capture_output=True, text=True, check=True).stdout
    else:
        listed = subprocess.run(["git", "ls-files", "crates"], capture_output=True, text=True, check=True).stdout
    for name in sorted(n for n in listed.split("\n") if re.fullmatch(r"crates/\w+/src/.*\.rt", n)):
        if commit:
            yield name, subprocess.run(["git", "show", f"{commit}:{name}"], capture_output=True, text=True, check=True).stdout
        else:
            with open(name, encoding="utf-8") as f:
                yield name, f.read()


def functions(text):
    """The functions of a file: line, name, parameters, clauses, body."""
    lines = text.split("\n")
    for i, line in enumerate(lines):
        found = re.match(r"(\s*)(?:pub(?:\(\w+\))? )?(?:extern \"C\" )?fn (\w+)", line)
        if not found:
            continue
        end = next((k for k in range(i, len(lines)) if lines[k] == found.group(1) + "}" or (k == i and lines[k].rstrip().endswith("}"))), i)
        opens = next((k for k in range(i, end + 1) if lines[k] == found.group(1) + "{"), i)
        head = "\n".join(lines[i : max(opens, i + 1)])
        signature = re.split(r"\n\s*(?:requires|ensures)\b", head)[0]
        inside = of_brackets(signature)
        parameters = [p.strip() for p in split_outside(inside) if p.strip()]
        clauses = re.findall(r"^\s*(requires|ensures)(?: \w+)? \{(.*?)\}\s*$", head, re.M)
        yield i + 1, found.group(2), parameters, clauses, "\n".join(lines[opens + 1 : end])


def of_brackets(text):
    """What stands between a text's first round bracket and the one that closes it."""
    start, depth = text.find("(") + 1, 0
    for k in range(start, len(text)):
        if text[k] == ")" and depth == 0:
            return text[start:k]
        depth += (text[k] == "(") - (text[k] == ")")
    return ""


def split_outside(text):
    """The parts of a text between commas that stand in no bracket."""
    parts, depth, start = [], 0, 0
    for k, char in enumerate(text):
        depth += char in "([<{"
        depth -= char in ")]>}"
        if char == "," and depth == 0:
            parts.append(text[start:k])
            start = k + 1
    return parts + [text[start:]]


def skeleton(parameters, body):
    """A body with its names of functions, types and constants, and its numbers, left out; variables by the order in which they come."""
    body = re.sub(r"//[^\n]*", "", body)
    words = re.findall(r"[A-Za-z_]\w*|\d+|b?\"[^\"]*\"|[^\s\w]+", body)
    keep = {"if", "else", "while", "for", "in", "let", "mut", "return", "match", "loop", "continue", "break", "true", "false", "as", "self", "loop"}
    seen, out = {}, [str(len(parameters))]
    for i, w in enumerate(words):
        if w in keep or not re.match(r"[\w\"b]", w):
            out.append(w)
        elif re.match(r"\d|b?\"", w):
            out.append("#")
        elif i + 1 < len(words) and words[i + 1][0] in "(:" and not words[i + 1].startswith(":="):
            out.append("F")
        elif w[0].isupper():
            out.append("T")
        else:
            out.append("v%d" % seen.setdefault(w, len(seen)))
    return " ".join(out)


def places(commit):
    found = defaultdict(list)
    bodies, clauses = defaultdict(list), defaultdict(list)
    for name, text in sources(commit):
        for n, line in enumerate(text.split("\n"), 1):
            code = line.split("//")[0]
            where = f"{name}:{n}"
            if re.match(r"\s*(pub(\(\w+\))? )?enum ", code):
                found["1a"].append(f"{where} {code.strip()}")
            if re.match(r"\s+pub \w+: bool,", code):
                found["1b"].append(f"{where} {code.strip()}")
            if KIND.match(code) and not LIMIT.search(code):
                found["1c"].append(f"{where} {code.strip()}")
            if re.search(r"\bwhile\b|\bloop\b \{", code):
                found["3"].append(f"{where} {code.strip()}")
            for _ in re.findall(r"\boctets::wide(?:16|32|_index)\b", code):
                found["4a"].append(f"{where} {code.strip()}")
            for _ in re.findall(r" as (?:u8|u16|u32|u64|usize)\b", code):
                found["4b"].append(f"{where} {code.strip()}")
            if re.search(r"\b(octets::equal|octets::copy|codes::identical|greater)\(", code) or re.search(r"\bfn (equal|copy|identical|greater)\(", code):
                found["4c"].append(f"{where} {code.strip()}")
            for _ in re.findall(r"= \[+0u\d+; ", code):
                found["6b"].append(f"{where} {code.strip()}")
        for n, function, parameters, contract, body in functions(text):
            where = f"{name}:{n} {function}"
            if body.count("\n") >= 2:
                bodies[skeleton(parameters, body)].append(where)
            for kind, clause in contract:
                if kind == "requires":
                    clauses[re.sub(r"\s+", " ", clause).replace(".old", ".now").strip()].append(where)
            if len(parameters) >= 9:
                found["5b"].append(f"{where} {len(parameters)} parameters")
            shape = " ".join(parameters)
            if re.search(r"&mut \[u\d+\] at: usize|(?:entries|keys|ws|vars): &mut \[u\d+\].* (?:n|top|at): (?:usize|u32)", shape):
                found["6a"].append(where)
            if re.search(r"\b(?:back|exact|backward|left|second|workshop): bool|\b(?:kind|tag): u8|\bnumber: u32", shape):
                found["7"].append(where)
    for group in bodies.values():
        if len(group) > 1:
            found["2"] += [f"{w} ({len(group)} alike)" for w in group]
    for clause, group in sorted(clauses.items()):
        if len(group) >= 3:
            found["5a"].append(f"{len(group)} functions: {clause}")
    return found


def main():
    arguments = sys.argv[1:]
    commit = arguments[arguments.index("--at") + 1] if "--at" in arguments else None
    found = places(commit)
    if "--list" in arguments:
        print("\n".join(found[arguments[arguments.index("--list") + 1]]))
        return
    for point, what in POINTS.items():
        print(f"{point:3} {len(found[point]):4} {what}")


main()
