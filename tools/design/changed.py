#!/usr/bin/env python3
"""Lists what changed of public functions, public types, definitions and claims between a commit and the files as they stand, old and new together.

    tools/design/changed.py COMMIT

Functions and types are told apart by crate, owner and name, and by module where a crate has several of one name; definitions and claims by crate and
name: one that moved to another file of its crate is the same.
Comments and imports don't count. By text alone: a reader judges whether a text says less.
"""
import re
import subprocess
import sys
from collections import Counter, OrderedDict


def files(commit, pattern):
    listing = ["git", "ls-tree", "-r", "--name-only", commit, "crates"] if commit else ["git", "ls-files", "crates"]
    for name in subprocess.run(listing, capture_output=True, text=True, check=True).stdout.split("\n"):
        if re.fullmatch(pattern, name):
            if commit:
                text = subprocess.run(["git", "show", f"{commit}:{name}"], capture_output=True, text=True, check=True).stdout
            else:
                with open(name, encoding="utf-8") as f:
                    text = f.read()
            yield name.split("/")[1], name, text


def functions_and_types(commit):
    """Of each crate, name and module the public functions with their clauses, and the public types and impls with ghost items."""
    found = OrderedDict()
    for crate, file, text in files(commit, r"crates/\w+/src/.*\.rt"):
        module = file.split("/")[-1].removesuffix(".rt")
        lines = [line for line in text.split("\n") if not line.strip().startswith("//")]
        owner = ""
        for i, line in enumerate(lines):
            implements = re.match(r"impl(?:<[^>]*>)? (.*?) ?\{$", line)
            if implements:
                owner = re.sub(r"<.*?>", "", implements.group(1)) + "::"
                ghosts = ghost_lines(lines, i)
                if ghosts:
                    found[(crate, f"impl {implements.group(1)}", module)] = "\n".join([line] + ghosts)
            elif line == "}":
                owner = ""
            function = re.match(r"\s*pub (?:const )?(?:extern \"C\" )?fn (\w+)", line)
            if function:
                end = next(k for k in range(i, len(lines)) if lines[k].strip() == "{")
                found[(crate, owner + function.group(1), module)] = "\n".join(shown[4 * bool(owner):] for shown in lines[i:end])
            kind = re.match(r"pub (?:struct|enum|trait|type) (\w+)", line)
            if kind:
                end = i if line.rstrip().endswith((";", "}")) else next(k for k in range(i, len(lines)) if lines[k] == "}")
                found[(crate, "type " + kind.group(1), module)] = "\n".join(shown for shown in lines[i:end + 1] if shown.strip())
    return found


def by_name(old, new):
    """Both without the modules, but for names that stand several times in a crate."""
    counted = [Counter(key[:2] for key in found) for found in (old, new)]

    def key(crate, name, module):
        several = any(count[(crate, name)] > 1 for count in counted)
        return (crate, f"{module}::{name}" if several else name)

    return [OrderedDict((key(*names), text) for names, text in found.items()) for found in (old, new)]


def ghost_lines(lines, start):
    out = []
    for line in lines[start + 1:]:
        if line == "}":
            break
        if re.match(r"\s*ghost (?!use)", line):
            out.append(line)
    return out


def definitions(commit, pattern):
    """The paragraphs of specs/ (or of the theorems) by the first name that each declares."""
    found = OrderedDict()
    for crate, name, text in files(commit, pattern):
        if name.endswith("/Lib.antt"):
            continue
        for paragraph in re.split(r"\n\s*\n", text):
            lines = [line for line in paragraph.split("\n") if line.strip() and not line.startswith(("--", "use "))]
            if not lines:
                continue
            declared = re.match(r"(?:abbrev |unfoldable |pub |record |data |instance )*([^\s:({]+)", lines[0])
            key = (crate, declared.group(1) if declared else lines[0])
            body = "\n".join(re.sub(r"\s+--.*$", "", line.rstrip()) for line in lines)
            found[key] = found[key] + "\n" + body if key in found else body
    return found


def show(title, old, new):
    changed = [key for key in old if key in new and old[key] != new[key]]
    gone = [key for key in old if key not in new]
    fresh = [key for key in new if key not in old]
    print(f"### {title}: {len(changed)} changed, {len(gone)} gone, {len(fresh)} new\n")
    for word, keys in (("", changed), (" (gone)", gone), (" (new)", fresh)):
        for crate, name in keys:
            print(f"**{crate}, {name}**{word}\n\n```text")
            if (crate, name) in old:
                print(old[(crate, name)])
            if word == "":
                print("--- now")
            if (crate, name) in new:
                print(new[(crate, name)])
            print("```\n")


def main():
    commit = sys.argv[1]
    show("Public functions and types", *by_name(functions_and_types(commit), functions_and_types(None)))
    show("Definitions", definitions(commit, r"crates/\w+/specs/.*\.antt"), definitions(None, r"crates/\w+/specs/.*\.antt"))
    theorems = r"crates/\w+/proofs/Theorems.*\.antt"
    show("Theorems", definitions(commit, theorems), definitions(None, theorems))


main()
