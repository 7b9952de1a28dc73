#!/usr/bin/env bash
# The command tulakkez: random texts and programs, mistakes and refusals at their places, the paper's programs, the pages' examples, usage, and
# journals in files under cuts, failing calls, kills and several writers. The last line is 'N passed, M failed'; the exit status is 0 only if M is 0.
set -euo pipefail
cd "$(dirname "$0")/../.."

. tests/counting.sh
. tests/building.sh
scratch=$(mktemp -d)
trap 'rm -rf "$scratch"' EXIT

# tests NAME MANIFEST: the tests of a crate, each counted.
tests() {
    local status=0 totals
    cargo test --release --offline --no-fail-fast --manifest-path "$2" > "$scratch/tests" 2>&1 || status=$?
    totals=$(awk '/^test result:/ { ok += $4; bad += $6 } END { print ok + 0, bad + 0 }' "$scratch/tests")
    passed=$((passed + ${totals% *}))
    failed=$((failed + ${totals#* }))
    if [ "$status" -ne 0 ]; then
        sed -n '/^error/,$p; /^failures:/,$p' "$scratch/tests" | cut -c1-400
        if [ "${totals#* }" -eq 0 ]; then verdict "$1" 1; fi
    fi
}

part "static library" library
part "the command" cargo build --quiet --release --offline --manifest-path tools/tulakkez/Cargo.toml
part "the library that cuts a run off" cargo build --quiet --release --offline --manifest-path tests/tulakkez/cut/Cargo.toml
tests "the command's own tests" tools/tulakkez/Cargo.toml
tests "the tests of the command" tests/tulakkez/Cargo.toml
echo "$passed passed, $failed failed"
[ "$failed" -eq 0 ]
