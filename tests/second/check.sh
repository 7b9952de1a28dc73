#!/usr/bin/env bash
# Runs the unit tests, rebuilds the answers to tests/calls and compares them with the file, and holds the journals on
# bytes to the plain book. The last line is 'N passed, M failed'; the exit status is 0 only if M is 0.
set -euo pipefail
cd "$(dirname "$0")"

passed=0
failed=0
scratch=$(mktemp -d)
trap 'rm -rf "$scratch"' EXIT

# verdict NAME STATUS
verdict() {
    if [ "$2" -eq 0 ]; then
        passed=$((passed + 1))
        echo "$1: ok"
    else
        failed=$((failed + 1))
        echo "$1: FAILED"
    fi
}

# same FILE FILE: says where two files differ first, lines cut to a readable length.
same() {
    cmp -s "$1" "$2" && return 0
    diff "$1" "$2" | cut -c1-200 | sed -n 1,10p || true
    return 1
}

status=0
cargo test --release --offline --no-fail-fast > "$scratch/tests" 2>&1 || status=$?
totals=$(awk '/^test result:/ { ok += $4; bad += $6 } END { print ok + 0, bad + 0 }' "$scratch/tests")
passed=$((passed + ${totals% *}))
failed=$((failed + ${totals#* }))
if [ "$status" -ne 0 ]; then
    sed -n '/^error/,$p; /^failures:/,$p' "$scratch/tests" | cut -c1-400
    if [ "${totals#* }" -eq 0 ]; then
        verdict "unit tests" 1
    fi
fi

status=0
cargo build --quiet --release --offline || status=$?
verdict "build" "$status"
second=target/release/second

status=0
{ "$second" answer < ../calls/calls.txt > "$scratch/answers" && same "$scratch/answers" ../calls/answers.txt; } || status=$?
verdict "answers to $(wc -l < ../calls/calls.txt) calls" "$status"

status=0
{
    "$second" book 1 200 > "$scratch/lists" &&
        sed 's/ = .*//' "$scratch/lists" > "$scratch/list-calls" &&
        sed 's/.* = //' "$scratch/lists" > "$scratch/list-answers" &&
        "$second" answer < "$scratch/list-calls" > "$scratch/answers" &&
        same "$scratch/answers" "$scratch/list-answers"
} || status=$?
verdict "the book's answers to $(wc -l < "$scratch/lists") calls" "$status"

echo "$passed passed, $failed failed"
[ "$failed" -eq 0 ]
