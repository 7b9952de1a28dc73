#!/usr/bin/env bash
# Builds what the tests after it run: the static library and the program, each only where a source is younger (tests/building.sh).
# The last line is 'N passed, M failed'; the exit status is 0 only if M is 0.
set -uo pipefail
cd "$(dirname "$0")/.."

. tests/counting.sh
. tests/building.sh
part "the static library" library
part "the program corefun" program
echo "$passed passed, $failed failed"
[ "$failed" -eq 0 ]
