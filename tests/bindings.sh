#!/usr/bin/env bash
# Builds the examples of each binding over the static library, runs them, and compares their answers with the second evaluator's.
# Without a C compiler the C examples are skipped, which counts neither way. The last line is 'N passed, M failed'; the exit
# status is 0 only if M is 0.
set -euo pipefail
cd "$(dirname "$0")/.."

. tests/counting.sh
. tests/building.sh
scratch=$(mktemp -d)
trap 'rm -rf "$scratch"' EXIT

# The calls that both examples make, in the second evaluator's lines.
plus_calls() {
    local program two=04020402040100 three=040204020402040100 most=2129888
    program=$(od -An -v -tx1 "$scratch/plus.cf" | tr -d ' \n')
    echo "check $most $program"
    echo "forward $most 1024 28 0 $program $two $three"
    echo "forward $most 1024 27 0 $program $two $three"
    echo "backward $most 1024 28 0 $program $two 04020402040204020402040100"
    echo "backward $most 1024 28 1 $program - 03${three}0402${three}"
}

# reader_answers JOURNAL: what both readers answer.
reader_answers() {
    printf '%s\n' "nurse 40 $1" "workshop 40 $1" | "$second" answer
}

# The answers to the calls of the example `journal`, each on the journal that the one before left, and the script's answers.
journal_answers() {
    local program two=04020402040100 three=040204020402040100 most=33664 journal answer zeros
    program=$(od -An -v -tx1 "$scratch/plus.cf" | tr -d ' \n')
    zeros=$(printf '00%.0s' {1..40})
    answer=$("$second" answer <<< "open $most $program $three $zeros") && echo "$answer"
    answer=$("$second" answer <<< "convert $most 28 0 $program $two ${answer##* }") && echo "$answer"
    reader_answers "${answer##* }"
    answer=$("$second" answer <<< "rollback $most 28 $program ${answer##* }") && echo "$answer"
    reader_answers "${answer##* }"
    answer=$("$second" answer <<< "rollback $most 28 $program ${answer##* }") && echo "$answer"
    # Document 01, section 6, P13, in the lines of docs/USING.md: opened; 13 bytes, 28 steps; 9 bytes, 28 steps; refused 19.
    echo "played 4 4100000000000042000d0000001c4200090000001c43001300000000"
}

second=tests/second/target/release/second

expect() {
    examples/bytes.sh examples/programs/plus.txt > "$scratch/plus.cf" &&
        cargo build --quiet --release --offline --manifest-path tests/second/Cargo.toml &&
        plus_calls | "$second" answer > "$scratch/plus" &&
        journal_answers > "$scratch/journal"
}

# c_example NAME
c_example() {
    "$compiler" -std=c99 -O2 -Wall -Wextra -pedantic -Werror -I include "examples/c/$1.c" target/staticlib/libexports.a -o "$scratch/$1-c" &&
        "$scratch/$1-c" "$scratch/plus.cf" > "$scratch/got" &&
        diff "$scratch/got" "$scratch/$1"
}

# caught CALL: a call whose buffers overlap ends the run where assertions are made, and goes on where they are not.
caught() {
    "$scratch/slices-unchecked" "$1" | grep -qx "not caught" && ! { (ulimit -c 0; "$scratch/slices" "$1"); } > /dev/null 2>&1
}

# What the header itself does, with assertions and without them; and that C++ takes it, where there is a C++ compiler.
c_header() {
    local flags=(-O2 -Wall -Wextra -pedantic -Werror -I include) archive=target/staticlib/libexports.a
    if "$compiler" -x c++ -fsyntax-only /dev/null 2> /dev/null; then
        "$compiler" -std=c++11 "${flags[@]}" -x c++ -fsyntax-only tests/c/slices.c || return 1
    fi
    "$compiler" -std=c99 "${flags[@]}" tests/c/slices.c "$archive" -o "$scratch/slices" &&
        "$compiler" -std=c99 -DNDEBUG "${flags[@]}" tests/c/slices.c "$archive" -o "$scratch/slices-unchecked" &&
        "$scratch/slices" > "$scratch/got" &&
        diff "$scratch/got" <(printf '%s\n' accepted "the workspace is too short" "there is no such function" \
            "value bytes are malformed, over the limit or wrong in number" "the journal is malformed" \
            "the output is too short" "the journal is malformed") &&
        caught forward && caught nurse && caught workshop
}

# rust_example NAME
rust_example() {
    cargo run --quiet --release --offline --manifest-path bindings/rust/Cargo.toml --example "$1" "$scratch/plus.cf" > "$scratch/got" &&
        diff "$scratch/got" "$scratch/$1"
}

part "static library" library
part "the second evaluator's answers" expect
compiler=$(command -v cc || command -v gcc || command -v clang || true)
for name in plus journal; do
    if [ -n "$compiler" ]; then
        part "C example $name" c_example "$name"
    else
        echo "C example $name: SKIPPED, there is no C compiler here"
    fi
    part "Rust example $name" rust_example "$name"
done
if [ -n "$compiler" ]; then part "C, the header's own part" c_header; fi
part "Rust, a refusal's words, and the readers" cargo test --quiet --release --offline --manifest-path bindings/rust/Cargo.toml --lib

echo "$passed passed, $failed failed"
[ "$failed" -eq 0 ]
