#!/usr/bin/env bash
# Holds the documents to the repository: what they link to or name as a path is there, modules that they name as CRATE/specs/X or CRATE/proofs/X too,
# so are the edits that docs/CLAIMS.md names, which are all, and a crate declares what it names besides; the map of docs/ARCHITECTURE.md is that of
# crates.txt, which lists for each crate the ones that it names; no file names a folder of one machine.
# The last line is 'N passed, M failed'; the exit status is 0 only if M is 0.
set -uo pipefail
cd "$(dirname "$0")/.."
. tests/counting.sh

documents() { find . \( -name target -o -name out \) -prune -o -name '*.md' -print | sed 's|^\./||' | LC_ALL=C sort; }

# named FILE PATTERN: the texts of a document that a pattern finds, without what ends a sentence.
named() { grep -oE "$2" "$1" | sed -E 's/[.,:;)]+$//' | LC_ALL=C sort -u; }

# there PATH..: is one of the paths there?
there() {
    local path
    for path in "$@"; do
        if [ -e "$path" ]; then return 0; fi
    done
    return 1
}

links() {
    local target
    while IFS= read -r target; do
        there "$(dirname "$1")/$target"
        verdict "$1 links to $target" $?
    done < <(grep -oE '\]\([A-Za-z][^):#]*\)' "$1" | sed -E 's/^\]\(//; s/\)$//' | LC_ALL=C sort -u)
}

paths() {
    local path
    while IFS= read -r path; do
        case $path in
        */target/* | *NAME* | *WHAT*) continue ;;
        esac
        there "$path" "$path.antt" "$path.rt" "$(dirname "$1")/$path"
        verdict "$1 names $path" $?
    done < <(named "$1" '\b(crates|docs|tests|tools|examples|include|bindings)/[A-Za-z0-9_][A-Za-z0-9_./+-]*')
}

modules() {
    local path crate
    while IFS= read -r path; do
        crate=${path%%/*}
        there "crates/$path" "crates/$path.antt"
        verdict "$1 names $path" $?
    done < <(named "$1" '\b[a-z]+/(specs|proofs)/[A-Z][A-Za-z0-9/]*')
}

# What docs/CLAIMS.md says in the last column of the tables that have edits there; and all else that it says.
of_edits() { awk -F'|' '/^\|/ { if (!inside) of_edits = $(NF - 1) ~ /edit/; inside = 1; if (of_edits) print $(NF - 1); next } { inside = 0 }' docs/CLAIMS.md; }
of_all_else() { awk -F'|' '/^\|/ { if (!inside) of_edits = $(NF - 1) ~ /edit/; inside = 1; if (of_edits) $(NF - 1) = ""; print; next } { inside = 0; print }' docs/CLAIMS.md; }

# Names of more than one word, in back quotes.
quoted() { grep -oE '`[a-z0-9]+(_[a-z0-9]+)+`' | tr -d '`' | LC_ALL=C sort -u; }

# What the crates' definitions and laws declare.
declared() { find crates -path '*/out' -prune -o -name '*.antt' -print0 | xargs -0 grep -ohE '^ *[^-(){}: ][^(){}:]* :( |$)' | tr ' ' '\n' | LC_ALL=C sort -u; }

edits() {
    local name names
    while IFS= read -r name; do
        there crates/*/must-fail/"$name".edit
        verdict "docs/CLAIMS.md names the edit $name" $?
    done < <(of_edits | quoted)
    names=$(declared)
    while IFS= read -r name; do
        there crates/*/must-fail/"$name".edit || grep -qxF "$name" <<< "$names"
        verdict "docs/CLAIMS.md names $name, an edit or a definition" $?
    done < <(of_all_else | quoted)
    for name in crates/*/must-fail/*.edit; do
        grep -qF "\`$(basename "$name" .edit)\`" docs/CLAIMS.md
        verdict "$name is named by docs/CLAIMS.md" $?
    done
}

# One version: the header's, the binding's, the command's and that of the newest part of the changelog.
versions() {
    local header binding command log
    header=$(sed -nE 's/^#define COREFUN_VERSION "(.*)"$/\1/p' include/corefun.h)
    binding=$(sed -nE 's/^version = "(.*)"$/\1/p' bindings/rust/Cargo.toml)
    command=$(sed -nE 's/^version = "(.*)"$/\1/p' tools/tulakkez/Cargo.toml)
    log=$(sed -nE 's/^## ([0-9.]+).*$/\1/p' CHANGELOG.md | head -n 1)
    [ -n "$header" ] && [ "$header" = "$binding" ] && [ "$header" = "$command" ] && [ "$header" = "$log" ]
    verdict "header, binding, command and changelog have one version" $?
}

# The crates of crates.txt, each with what it stands on; and the first two columns of the map.
listed() { sed -nE 's/^([a-z]+)( staticlib)?: *(.*)$/\1: \3/p' crates.txt | sed -E 's/ +$//'; }
mapped() {
    sed -n '/^| crate | stands on/,/^$/p' docs/ARCHITECTURE.md | sed -nE 's/^\| ([a-z]+) \| *([a-z, ]*)\|.*/\1: \2/p' | grep -v '^crate:' | tr -d ',' | sed -E 's/ +$//'
}
map() { diff <(mapped | LC_ALL=C sort) <(listed | LC_ALL=C sort); }

# The other crates that a crate's files name, in the order of crates.txt's lists: in code as a path's first part, in definitions and proofs as a library.
names_in() {
    {
        find "crates/$1/src" -name '*.rt' -exec sed 's,//.*,,' {} + | grep -oE '(^|[^A-Za-z0-9_:])[a-z]+::' | grep -oE '[a-z]+'
        find "crates/$1" \( -name must-fail -o -name out \) -prune -o -type f -print0 | xargs -0 grep -ohE 'Rattle\.[a-z]+' | sed 's/Rattle\.//'
    } | LC_ALL=C sort -u | grep -vx "$1"
}
only_named() {
    local crate others status=0
    while IFS=: read -r crate others; do
        if ! diff <(tr ' ' '\n' <<< "$others" | grep . | LC_ALL=C sort) <(names_in "$crate" | grep -xFf <(listed | sed 's/:.*//') | LC_ALL=C sort); then
            echo "crates.txt: $crate names other crates than those that are listed"
            status=1
        fi
    done < <(listed)
    return $status
}

no_folder_of_a_machine() {
    ! grep -rnIE --exclude-dir=target --exclude-dir=out --exclude-dir=.git '(^|[^A-Za-z0-9_.])/(home|root|work)/[a-z]' .
}

while IFS= read -r document; do
    links "$document"
    paths "$document"
    modules "$document"
done < <(documents)
edits
versions
part "the map has the crates of crates.txt, and what each stands on" map
part "crates.txt lists the crates that a crate names" only_named
part "no folder of one machine" no_folder_of_a_machine
echo "$passed passed, $failed failed"
[ "$failed" -eq 0 ]
