#!/usr/bin/env bash
# Links the engine as a static library and holds it to the second evaluator: on the calls of tests/calls, on fresh random calls, programs
# with steering and with choices there and back, programs over large types, calls made to be slow, lists and scripts of journal calls, on 26
# weeks of a machine, in time (printed, and judged for checks of programs over large types) and in stack. With --long there are more of the
# slow calls, with more fuel. The last line is 'N passed, M failed'; the exit status is 0 only if M is 0.
set -euo pipefail
cd "$(dirname "$0")/../.."

random_calls=100000
steered_programs=25000
choosing_programs=25000
large_programs=10000
random_lists=2000
random_scripts=2000
slow_calls=150
slow_work=10000000
if [ "${1-}" = --long ]; then
    slow_calls=1500
    slow_work=100000000
fi
seed=$(date +%s)
. tests/counting.sh
. tests/building.sh

calls() {
    target/release/harness lines < ../calls/calls.txt
}

part "static library" library
cd tests/engine
part "harness" cargo build --quiet --release --offline
part "the calls of tests/calls" calls
part "random calls, seed $seed" target/release/harness random "$seed" "$random_calls"
part "programs with steering, seed $seed" target/release/harness steer "$seed" "$steered_programs"
part "programs with choices, seed $seed" target/release/harness choose "$seed" "$choosing_programs"
part "programs over large types, seed $seed" target/release/harness large "$seed" "$large_programs"
part "slow calls, seed $seed" target/release/harness slow "$seed" "$slow_calls" "$slow_work"
part "lists of journal calls, seed $seed" target/release/harness lists "$seed" "$random_lists"
part "scripts of journal calls, seed $seed" target/release/harness scripts "$seed" "$random_scripts"
part "26 weeks of a machine, seed $seed" target/release/harness months "$seed" 26 4
part "time beside the second evaluator" target/release/harness bench
part "stack of the deepest calls" target/release/harness stack

echo "$passed passed, $failed failed"
[ "$failed" -eq 0 ]
