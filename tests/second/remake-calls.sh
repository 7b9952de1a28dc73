#!/usr/bin/env bash
# Makes tests/calls anew. The first 131 calls stay as they are: 31 that each tell two readings of document 01 apart,
# and 100 others. The rest is made: section 6's cases and the limits, then random calls in three bands of length, then
# the calls of some lists, steered ones (document 02, F-2) and programs over large types (F-4) among them; after all these the calls of the two
# readers (F-1), from the same sources. The answers of all are the second evaluator's.
set -euo pipefail
cd "$(dirname "$0")"
cargo build --quiet --release --offline
second=target/release/second
calls=../calls/calls.txt

# band LOW HIGH COUNT: the first COUNT lines whose length is in the band. It reads to the end, so that no pipe breaks.
band() {
    awk -v low="$1" -v high="$2" -v count="$3" 'length($0) >= low && length($0) <= high && ++n <= count'
}

readers='^(nurse|workshop) '

# other_calls, reader_calls: the lines that are not, and that are, calls of a reader.
other_calls() { grep -vE "$readers"; }
reader_calls() { grep -E "$readers"; }

# listed: the calls of some lists, without the book's answers.
listed() { "$second" book 4 60 | sed 's/ = .*//'; }

{
    band 0 100000 131 < "$calls"
    "$second" cases | other_calls
    "$second" make 1 7100 | other_calls | band 0 1300 1510
    "$second" make 2 5500 | other_calls | band 2000 4200 300
    "$second" make 3 35200 | other_calls | band 6000 17000 56
    listed | other_calls | band 0 1300 300
    "$second" cases | reader_calls
    "$second" make 1 7100 | reader_calls | band 0 1300 250
    "$second" make 2 5500 | reader_calls | band 2000 4200 20
    listed | reader_calls | band 0 1300 100
} > "$calls.new"
mv "$calls.new" "$calls"
"$second" answer < "$calls" > ../calls/answers.txt
