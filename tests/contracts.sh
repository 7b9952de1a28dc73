#!/usr/bin/env bash
# Lists every `pub fn` of every crate with its clauses, and fails on one
#   - without an `ensures`,
#   - with a result that no `ensures` names,
#   - that strangers call (the crates below) with a `requires`, or with a `&mut` parameter of which no `ensures` names what it is afterwards.
# Usage: tests/contracts.sh [REPOSITORY]. The last line is 'N passed, M failed', a function each; the exit status is 0 only if M is 0.
set -euo pipefail
cd "${1:-$(dirname "$0")/..}"

# Crates whose public functions ask nothing of their caller.
open_crates="engine readers exports replay batch"

sources=()
while IFS= read -r file; do sources+=("$file"); done < <(find crates -name out -prune -o -path '*/src/*.rt' -print | LC_ALL=C sort)

awk -v open_crates="$open_crates" '
BEGIN {
    count = split(open_crates, names, " ")
    for (i = 1; i <= count; i++) is_open[names[i]] = 1
    printf "%-10s %-34s %-24s %8s %7s\n", "crate", "file", "function", "requires", "ensures"
}

function complain(what) {
    if (bad == "") bad = what
    else bad = bad "; " what
}

# The parameters that the function may change, by name.
function changed_parameters(head, found,   rest, name) {
    split("", found)
    rest = head
    while (match(rest, /[a-z_][a-z_0-9]*: &mut /)) {
        name = substr(rest, RSTART, RLENGTH)
        sub(/:.*/, "", name)
        found[name] = 1
        rest = substr(rest, RSTART + RLENGTH)
    }
    if (head ~ /\(&mut self/) found["self"] = 1
}

function judge(   parts, crate, name, result, changed) {
    split(FILENAME, parts, "/")
    crate = parts[2]
    name = head
    sub(/^.*fn /, "", name)
    sub(/[^a-z_A-Z0-9].*$/, "", name)
    bad = ""
    if (ensured == 0) complain("no ensures")
    if (ensured > 0 && head ~ /\) -> / && promise !~ /(^|[^a-z_.])result([^a-z_0-9]|$)|λ [^_]/) complain("the result is not named")
    if (crate in is_open) {
        if (required > 0) complain("it requires something")
        changed_parameters(head, changed)
        for (parameter in changed)
            if (promise !~ ("(^|[^a-z_0-9.])" parameter "[.]new([^a-z_0-9]|$)")) complain("what " parameter " is afterwards is not named")
    }
    printf "%-10s %-34s %-24s %8d %7d%s\n", crate, parts[4] (parts[5] == "" ? "" : "/" parts[5]), name, required, ensured, bad == "" ? "" : "   FAILED: " bad
    if (bad == "") passed++
    else failed++
}

FNR == 1 { inside = 0 }

# A head ends at the brace of the body, which stands on a line of its own behind clauses.
!inside && /^ *pub (extern "C" )?fn / {
    inside = 1
    head = ""
    promise = ""
    required = ensured = 0
}
inside {
    line = $0
    sub(/^ */, "", line)
    if (line ~ /^requires[* ]/) required++
    else if (line ~ /^ensures[* ]/) ensured++
    if (required + ensured == 0) head = head " " line
    else if (ensured > 0) {
        # the name of a clause names nothing of what it says
        sub(/^(requires|ensures)[*]? *[a-z_0-9]* *\{/, "{", line)
        promise = promise " " line
    }
    if (line == "{" || (required + ensured == 0 && line ~ /\{(.*\})?$/)) {
        judge()
        inside = 0
    }
}

END {
    printf "%d passed, %d failed\n", passed, failed
    exit failed > 0 || passed == 0
}
' "${sources[@]}"
