#!/usr/bin/env bash
# Runs the kit's gate, `rt ci`: every crate proved, every must-fail edit tried, and the program run as each of two compilers builds it. What an earlier
# run on this machine passed of the same files is taken from there. The whole of what it says is left in target/ci.log, for tests/edits.sh and
# tests/refusals.sh; the program in target/bin, for the tests that run it.
# The last line is 'N passed, M failed', as rt ci's, with each edit that cannot be tried among the failed; the exit status is 0 only if M is 0.
set -uo pipefail
cd "$(dirname "$0")/.."

mkdir -p target
rt ci 2>&1 | tee target/ci.log | cut -c1-400
status=${PIPESTATUS[0]}
passed=0 failed=1
if [[ $(tail -n 1 target/ci.log) =~ ^([0-9]+)\ passed,\ ([0-9]+)\ failed$ ]]; then
    passed=${BASH_REMATCH[1]} failed=${BASH_REMATCH[2]}
fi
# rt ci passes in spite of an edit that cannot be applied, compiled or read, and counts it on this line alone.
ended=$(grep '^rt: ok;' target/ci.log)
if [[ $ended =~ ,\ ([0-9]+)\ bad ]]; then failed=$((failed + BASH_REMATCH[1])); fi
if [ "$failed" -eq 0 ] && { [ "$status" -ne 0 ] || [ -z "$ended" ]; }; then failed=1; fi
if [ "$failed" -eq 0 ]; then
    mkdir -p target/bin
    cp crates/corefun/out/corefun target/bin/corefun || failed=1
fi
echo "$passed passed, $failed failed"
[ "$failed" -eq 0 ]
