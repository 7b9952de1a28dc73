#!/usr/bin/env python3
"""Carries the must-fail edits over to the text that port.py and respell.py left.

usage: python3 tools/port/edits.py OLD MAP     at the top, once; OLD is a checkout from before port.py, MAP what `respell.py --map` prints in
                                               a checkout of port.py's commit
       python3 tools/port/edits.py --check     that each edit's file is there, each old text stands in it once, and a new one differs

An edit of code keeps its words. An edit of a definition or a clause is respelled: projections, primes and own names. What is not a matter of
spelling is in BY_HAND: imports, clauses, code that another layout holds on one line.
"""
import glob
import os
import re
import sys

ROOT = os.path.join(os.path.dirname(os.path.realpath(__file__)), "..", "..")
TOKEN = re.compile(r"[^\s(){}\[\];,.\"⌜⌝`:]+")

# own names that port.py itself respelled
BY_PORT = {"isUnit": "is_unit", "tagAt": "tag_at", "nextAt": "next_at", "countOf": "count_of", "hasTys": "has_tys"}

# the pairs of an edit, where they are no respelling of the old ones
BY_HAND = {
    "calls/nurse_counts_the_steps_of_an_entry": [
        ("Prelude.{ℕ, ◌+◌, ◌*◌, List, length, leb}", "Prelude.{ℕ, ◌+◌, ◌*◌, List, [], ◌∷◌, length, leb}"),
        ("  nurse_of J.held (length J.entries) out", "  nurse_of J.held (elim J.entries [ [] ↦ 0 | e ∷ es ↦ e.steps ]) out"),
    ],
    "calls/nurse_is_shown_a_constant": [
        ("use package.Rattle.rules.specs.Val.{Val, size, encode}", "use package.Rattle.rules.specs.Val.{Val, unit, size, encode}"),
        ("  accepted (record { held = v; standing = standing })", "  accepted (record { held = unit; standing = standing })"),
    ],
    "calls/output_loses_a_byte": [
        ("Prelude.{ℕ, Bool, true, false, cond,", "Prelude.{ℕ, ◌+◌, Bool, true, false, cond,"),
        (
            "overwritten x out = bytes_written x ++ drop (length (bytes_written x)) out",
            "overwritten x out = bytes_written x ++ drop (1 + length (bytes_written x)) out",
        ),
    ],
    "calls/workshop_needs_a_byte_more": [
        ("Prelude.{ℕ, ◌+◌, ◌*◌, List, length, leb}", "Prelude.{ℕ, suc, ◌+◌, ◌*◌, List, length, leb}"),
        ("  room ← require (leb (length (entry_fields es)) out) 17 0", "  room ← require (leb (suc (length (entry_fields es))) out) 17 0"),
    ],
    "calls/workshop_writes_the_newest_first": [
        ("Prelude.{ℕ, ◌+◌, ◌*◌, List, length, leb}", "Prelude.{ℕ, ◌+◌, ◌*◌, List, length, reverse, leb}"),
        ("  accepted (entry_fields es)", "  accepted (entry_fields (reverse es))"),
    ],
    "conversions/journal_touched_by_a_refusal": [
        ("  pub journal : j' ≡ (after_turned j x).journal", "  pub journal : j' ≡ (after_turned [] x).journal"),
    ],
    "conversions/rollback_keeps_the_record": [
        ("            journal::writing::write_rollback(journal, pl, held);", "            write_rollback(journal, pl, held);"),
        (
            "ghost use Rattle.valuebytes.specs.Ends.{is_value, value_in};",
            "ghost use Rattle.valuebytes.specs.Ends.{is_value, value_in};"
            " ghost use Rattle.journal.specs.Turns.{rolled_back}; ghost use Rattle.calls.specs.Journal.{fields};",
        ),
        (
            "// After the run: the steps",
            "fn write_rollback(journal: &mut [u8], pl: Places, held: &[u8])"
            " requires stands { Stands pl journal.old }"
            " requires held_value { is_value held.now ≡ true }"
            " requires held_in_bounds { length (fields (rolled_back (journal_in journal.old) (value_in held.now))) ≤ length journal.old }"
            " ensures { journal.new ≡ journal.old } { } // After the run: the steps",
        ),
    ],
    "engine/cleared_though_too_short": [
        ("    CheckAnswer::Refused(Refusal::Workspace)", "    octets::clear(workspace); CheckAnswer::Refused(Refusal::Workspace)"),
    ],
    "engine/workspace_left_as_it_comes": [
        ("        octets::clear(workspace);", "        clear(workspace);"),
        (
            "// Is the program accepted? The workspace",
            "fn clear(s: &mut [u8]) ensures { s.new ≡ s.old } { } // Is the program accepted? The workspace",
        ),
    ],
    # the same with the test's name kept, which a proof file cites
    "program/no_parameters": [
        ("    if parameters < 1 {", "    if parameters < 1 { return true; } if parameters < 1 {"),
    ],
    "program/reader_reads_the_start": [
        (
            "        ensures { found_of result self.entry.at ≡ field_at self.entry.program.now self.entry.at last }",
            "        ensures { found_of result self.entry.at ≡ field_at self.entry.program.now 0 last }",
        ),
    ],
    "rules/backward_left_then_right": [
        (
            "specs.Run.{Run, ◌>>=◌, give, refuse, lost, enter, test}",
            "specs.Run.{Run, ok, stop, stuck, ◌>>=◌, give, refuse, lost, enter, test}",
        ),
        (
            "σ₁ ← go a (none ∷ σ) (cond y b b') v",
            "σ₁ ← (λ f. elim (go a (none ∷ σ) b v f) [ ok s g ↦ ok s g | stop n j ↦ go a (none ∷ σ) b' v f | stuck ↦ stuck ])",
        ),
    ],
    # the same with the test's name kept, which a proof file cites
    "yields/glance_calls_equal_values_unequal": [
        ("    if nodes::alike(ws, known, node) {", "    if nodes::alike(ws, known, node) { return NO; } if true {"),
    ],
    "typing/let_pair_settles_no_naming": [
        (
            "p, types, ws, vars, r2, f.uses, sc, s.first, s.second, t, from, to,",
            "p, types, ws, vars, r2, f.uses, sc, s.first, s.second, t, to, to,",
        ),
    ],
}


def parsed(text):
    file, pairs = "", []
    for line in text.split("\n"):
        if line.startswith("file: "):
            file = file or line[6:].strip()
        elif line.startswith("old: "):
            old = line[5:]
        elif line.startswith("new:"):
            pairs.append((old, line[4:].removeprefix(" ")))
    return file, pairs


def respelled(text, names):
    text = text.replace("′", "'").replace("·specs.specs.", ".specs.").replace("Rattle·", "Rattle.")
    was = None
    while was != text:
        was = text
        # `(E .terms)`, `x .newest .steps`
        text = re.sub(r"\((\w[\w']*(?:\.\w+)*) \.(\w+)\)", r"\1.\2", text)
        text = re.sub(r"(?<![\w']) ?\b(\w[\w']*(?:\.\w+)*) \.(\w+)", lambda m: m.group(0).replace(" .", "."), text)
    return TOKEN.sub(lambda m: names.get(m.group(0), m.group(0)), text)


def check():
    bad = 0
    for path in sorted(glob.glob(f"{ROOT}/crates/*/must-fail/*.edit")):
        crate = os.path.dirname(os.path.dirname(path))
        with open(path, encoding="utf-8") as it:
            file, pairs = parsed(it.read())
        said = "" if pairs else "no pairs"
        try:
            with open(f"{crate}/{file}", encoding="utf-8") as it:
                text = it.read()
        except OSError as error:
            text, said = "", str(error)
        for old, new in pairs:
            if text.count(old) != 1:
                said = said or f"{text.count(old)} times: {old}"
            if old == new:
                said = said or f"nothing changes: {old}"
            text = text.replace(old, new)
        if said:
            bad += 1
            print(f"{os.path.relpath(path, ROOT)}: {file}: {said}")
    print(f"{bad} bad")
    return bad != 0


def main(argv):
    if argv == ["--check"]:
        sys.exit(check())
    old_root, table = argv
    with open(table, encoding="utf-8") as it:
        names = dict(line.split() for line in it) | BY_PORT
    for path in sorted(glob.glob(f"{old_root}/crates/*/must-fail/*.edit")):
        crate = path.split("/")[-3]
        name = os.path.basename(path).removesuffix(".edit")
        with open(path, encoding="utf-8") as it:
            text = it.read()
        file, pairs = parsed(text)
        by_hand = BY_HAND.get(f"{crate}/{name}")
        if by_hand:
            pairs = by_hand
        elif file.endswith(".antt"):
            pairs = [(respelled(a, names), respelled(b, names)) for a, b in pairs]
        out = f"file: {file}\n" + "".join(f"old: {a}\nnew: {b}\n" for a, b in pairs)
        target = f"{ROOT}/crates/{crate}/must-fail/{name}.edit"
        with open(target, encoding="utf-8") as it:
            had = it.read()
        if out != had:
            with open(target, "w", encoding="utf-8") as it:
                it.write(out)
    check()


main(sys.argv[1:])
