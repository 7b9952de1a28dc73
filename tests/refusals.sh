#!/usr/bin/env bash
# Reads what the prover said of every must-fail edit (tests/proofs.sh leaves what rt ci said in target/ci.log: of each edit the first error that is not
# about a name that the edit took away from a proof) and fails where there is no such error, or it is about a name that is not in scope, code that does
# not compile, or a proof of another shape than the code. It knows these by the texts below: an error of another text passes, so
# it does not show that an edit was refused for the fact that it changes.
# The last line is 'N passed, M failed', an edit each; the exit status is 0 only if M is 0.
set -uo pipefail
cd "$(dirname "$0")/.."
. tests/counting.sh

# What the prover says of names and shapes. rt cuts an error to one line: one that begins with a record is of a field that the record has not.
of_a_name=': record `|in scope|no constructor|no field|not a field|no module|no declaration|has no `|is not exported|does not export|was not admitted'
of_a_shape='this tuple has [0-9]+ components|is applied to too many|takes [0-9]+ arguments|does not parse'

# for_the_fact CRATE EDIT
for_the_fact() {
    local error said="must-fail $1/$2.edit: refused, as it must be"
    error=$(grep -sm 1 -F "rt: $said" target/ci.log)
    if [ -z "$error" ]; then
        echo "$1/$2: was not refused"
        return 1
    fi
    error=${error#"rt: $said"}
    error=${error#: }
    if [ -z "$error" ] || [[ $error == *"(only because a proof file names what the edit took away"* ]] ||
        [[ $error == *"(only by a limit of the prover"* ]] || grep -qE "$of_a_name|$of_a_shape" <<< "$error" ||
        grep -qE '/src/[^ ]*: error' <<< "$error"; then
        echo "$1/$2: ${error:-no error found}"
        return 1
    fi
}

for edit in crates/*/must-fail/*.edit; do
    crate=${edit#crates/}
    crate=${crate%%/*}
    name=$(basename "$edit" .edit)
    for_the_fact "$crate" "$name"
    verdict "$crate/$name" $?
done
echo "$passed passed, $failed failed"
[ "$failed" -eq 0 ]
