#!/usr/bin/env bash
# Counts the lines that a reader must believe (docs/TRUST.md): the claims, the contracts of the public functions, and every module of specs that these
# reach by its imports; without comments, imports, lists of modules and blank lines. Cases are computed from the definitions and stand apart.
# The figures are those of docs/CLAIMS.md. It prints and holds nothing.
set -euo pipefail
cd "$(dirname "$0")/.."

# lines FILE..: how many of them count.
lines() { if [ $# -gt 0 ]; then cat "$@" | grep -vE '^ *(--|//|$)|^((unfoldable )?pub )?use |^pub mod ' | wc -l; else echo 0; fi; }

# row WHAT COUNT
row() { printf '%-58s %5d\n' "$1" "$2"; }

# clauses FILE..: how many clauses its public functions have.
clauses() {
    cat "$@" | awk '/^ *pub (extern "C" )?fn / { on = 1 } on && /^ *(ensures|requires) / { n++ } /^ *[{]/ || /[{]$/ { on = 0 } END { print n + 0 }'
}

# imported FILE: the modules of specs that it names.
imported() {
    grep -oE 'use (package\.)?Rattle\.[a-z]+\.specs\.[A-Za-z]+(\.[A-Z][A-Za-z]+)*' "$1" | grep -v 'specs\.declared' |
        sed -E 's/.*Rattle\.([a-z]+)\.specs\./\1 /; s/\./\//g; s/^([a-z]+) (.*)$/crates\/\1\/specs\/\2.antt/' || true
}

# reached FILE..: these and all that they reach by imports, but for the kit's libraries.
declare -A seen
reached() {
    local file next
    for file in "$@"; do
        if [ -n "${seen[$file]:-}" ] || [ ! -f "$file" ]; then continue; fi
        seen[$file]=1
        mapfile -t next < <(imported "$file")
        if [ "${#next[@]}" -gt 0 ]; then reached "${next[@]}"; fi
    done
}

# fresh PATTERN: the modules of that pattern that were reached and not counted yet; they are counted now.
declare -A counted
fresh() {
    local file
    found=()
    for file in "${!seen[@]}"; do
        if [[ $file == $1 && -z ${counted[$file]:-} ]]; then
            counted[$file]=1
            found+=("$file")
        fi
    done
}

claims=(crates/rules/specs/Claims.antt crates/calls/specs/Claims.antt)
reached "${claims[@]}" crates/engine/specs/Runs.antt crates/answers/specs/Answers.antt crates/calls/specs/{Runs,Conversions,Readers,Book}.antt
for file in "${claims[@]}"; do counted[$file]=1; done
fresh 'crates/rules/*' && trees=$(lines "${found[@]}")
fresh 'crates/calls/*' && bytes=$(lines "${found[@]}")
fresh '*' && words=$(lines "${found[@]}")
stated=$(lines "${claims[@]}")
contracts=$(clauses crates/engine/src/*.rt crates/readers/src/*.rt)
eight=$((trees + bytes + stated + words + contracts))
reached crates/replay/specs/{Playing,Booked}.antt
fresh '*' && replay=$(($(lines "${found[@]}") + $(clauses crates/replay/src/playing.rt)))
reached crates/batch/specs/Lent.antt
fresh '*' && batch=$(($(lines "${found[@]}") + $(clauses crates/batch/src/lib.rt)))
reached crates/exports/specs/Told.antt
fresh '*' && exports=$(($(lines "${found[@]}") + $(clauses crates/exports/src/lib.rt)))
cases=$(lines crates/rules/specs/{Cases,Choices}.antt crates/calls/specs/{Cases,Borders,Samples}.antt crates/borders/specs/Borders.antt crates/entries/specs/TallyCases.antt)

row "definitions over trees (rules)" "$trees"
row "definitions on bytes (calls)" "$bytes"
row "claims (both)" "$stated"
row "words of the calls' contracts (octets, answers, engine)" "$words"
row "clauses of the calls' contracts (engine, readers)" "$contracts"
row "the eight calls and all claims" "$eight"
row "replay, words and clauses" "$replay"
row "lines of text (batch, calltext, messages), words and clauses" "$batch"
row "the static library (exports), words and clauses" "$exports"
row "everything public" "$((eight + replay + batch + exports))"
row "cases, computed (not believed)" "$cases"
