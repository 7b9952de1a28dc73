#!/usr/bin/env bash
# Counts what became of every must-fail edit, crates/NAME/must-fail/*.edit, in the last `rt ci` (tests/proofs.sh, which leaves what it said in
# target/ci.log): the prover must have refused the crate with the edit. rt ci proves each crate as it is before its edits, and once more after them over
# what they began with, and tries them from nothing where that fails.
#
#     tests/edits.sh [CRATE..]
#
# With crates it tries their edits, over what rt check kept of them (rt must-fail), and counts those.
# The last line is 'N passed, M failed', an edit each; the exit status is 0 only if M is 0.
set -uo pipefail
cd "$(dirname "$0")/.."
. tests/counting.sh

log=target/ci.log
if [ $# -gt 0 ]; then
    mkdir -p target
    log=target/must-fail.log
    rt must-fail "$@" 2>&1 | tee "$log" | cut -c1-400
else
    set -- crates/*
fi

for crate in "$@"; do
    crate=${crate#crates/}
    for edit in "crates/$crate/must-fail"/*; do
        [ -e "$edit" ] || continue
        grep -qsF "rt: must-fail $crate/$(basename "$edit"): refused, as it must be" "$log"
        verdict "$crate/$(basename "$edit" .edit)" $?
    done
done
echo "$passed passed, $failed failed"
[ "$failed" -eq 0 ] && [ "$passed" -gt 0 ]
