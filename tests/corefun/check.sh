#!/usr/bin/env bash
# Runs the program corefun: on the calls of tests/calls, as a batch and one by one, against the second evaluator's answers; on the cases of
# document 01, section 6; on scripts, against the plain book's answers; on journals in files, by both readers; and on bad arguments, files
# and lines, each of which gets a message and no crash.
# The last line is 'N passed, M failed'; the exit status is 0 only if M is 0.
set -euo pipefail
cd "$(dirname "$0")/../.."

. tests/counting.sh
. tests/building.sh
corefun=$PWD/target/bin/corefun
calls=$PWD/tests/calls/calls.txt
answers=$PWD/tests/calls/answers.txt
second=$PWD/tests/second/target/release/second
scratch=$(mktemp -d)
trap 'rm -rf "$scratch"' EXIT

# same NAME FILE FILE: the first lines that differ, cut to a readable length.
same() {
    local status=0
    cmp -s "$2" "$3" || status=1
    if [ "$status" -ne 0 ]; then diff "$2" "$3" | cut -c1-200 | sed -n 1,10p || true; fi
    verdict "$1" "$status"
}

# run ARGUMENT..: one run, with what it wrote in $scratch/out and $scratch/err, and its status, which is 0 unless it crashed.
run() {
    status=0
    "$corefun" "$@" > "$scratch/out" 2> "$scratch/err" < "${input:-/dev/null}" || status=$?
}

# answers_with TEXT ARGUMENT..: the run answers this line, and says nothing else.
answers_with() {
    local text=$1
    shift
    run "$@"
    printf '%s\n' "$text" > "$scratch/expected"
    if [ "$status" -ne 0 ] || [ -s "$scratch/err" ]; then status=1; fi
    cmp -s "$scratch/out" "$scratch/expected" || status=1
    if [ "$status" -ne 0 ]; then cat "$scratch/out" "$scratch/err" | cut -c1-200; fi
    verdict "corefun $(cut -c1-100 <<< "$*")" "$status"
}

# complains TEXT ARGUMENT..: the run answers nothing, and says this on standard error.
complains() {
    local text=$1
    shift
    run "$@"
    if [ "$status" -ne 0 ] || [ -s "$scratch/out" ]; then status=1; fi
    grep -qF -- "$text" "$scratch/err" || status=1
    if [ "$status" -ne 0 ]; then cat "$scratch/out" "$scratch/err" | cut -c1-200; fi
    verdict "corefun $(cut -c1-100 <<< "$*")" "$status"
}

# bytes HEX FILE; '-' is no bytes.
bytes() {
    if [ "$1" = - ]; then : > "$2"; else xxd -r -p <<< "$1" > "$2"; fi
}

# nat N: a number in ones (document 01, section 6).
nat() {
    local text=
    for _ in $(seq "$1"); do text+=0402; done
    echo "${text}040100"
}

batches() {
    "$corefun" batch < "$calls" > "$scratch/got" || true
    same "batch of $(wc -l < "$calls") calls" "$scratch/got" "$answers"
    dd if="$calls" bs=1013 status=none | "$corefun" batch > "$scratch/got" || true
    same "batch, read in small pieces" "$scratch/got" "$answers"
    head -c -1 "$calls" | "$corefun" batch > "$scratch/got" || true
    same "batch whose last line nothing ends" "$scratch/got" "$answers"
    "$corefun" batch < /dev/null > "$scratch/got" || true
    same "batch of no calls" "$scratch/got" /dev/null
}

# one CALL: a check, a run or a reader's call of tests/calls as a command, with its answer as a line. The command lends as much workspace
# and output as any call needs, so calls that are short of them (1, 17) are left out by the caller.
one() {
    local name ws a b c d e f
    read -r name ws a b c d e f <<< "$1"
    case $name in
        check)
            bytes "$a" "$scratch/program"
            "$corefun" check "$scratch/program"
            ;;
        forward | backward)
            bytes "$d" "$scratch/program"
            "$corefun" "$name" "$scratch/program" "$c" "$b" "$e" "$f"
            ;;
        nurse | workshop)
            bytes "$a" "$scratch/journal"
            "$corefun" "$name" "$scratch/journal"
            ;;
    esac > "$scratch/line" 2>&1 || true
    sed 's/^\(refused [0-9]*\) at \([0-9]*\): .*/\1 \2/' "$scratch/line"
}

singles() {
    local call answer
    : > "$scratch/got"
    : > "$scratch/expected"
    while IFS='|' read -r call answer; do
        case $call in open* | convert* | rollback*) continue ;; esac
        case $answer in 'refused 1 '* | 'refused 17 '*) continue ;; esac
        one "$call" >> "$scratch/got"
        echo "$answer" >> "$scratch/expected"
    done < <(paste -d'|' "$calls" "$answers")
    same "$(wc -l < "$scratch/expected") calls one by one" "$scratch/got" "$scratch/expected"
}

# Document 01, section 6. The program of plus and dup is that of the call that tests/calls has for P2.
cases() {
    local plus=$scratch/plus
    bytes "$(awk -v a="$(nat 2)" -v v="$(nat 3)" '$1 == "forward" && $7 == a && $8 == v { print $6; exit }' "$calls")" "$plus"
    answers_with ok check "$plus"
    answers_with "value $(nat 2) 4" forward "$plus" 0 65535 "$(nat 2)" "$(nat 0)"
    answers_with "value $(nat 5) 28" forward "$plus" 0 28 "$(nat 2)" "$(nat 3)"
    answers_with "refused 12 at 2: the fuel is spent" forward "$plus" 0 27 "$(nat 2)" "$(nat 3)"
    answers_with "value $(nat 3) 28" backward "$plus" 0 28 "$(nat 2)" "$(nat 5)"
    answers_with "value $(nat 255) 2044" forward "$plus" 0 65535 "$(nat 0)" "$(nat 255)"
    answers_with "value 03$(nat 254)$(nat 254) 3" forward "$plus" 1 3 - "$(nat 254)"
    answers_with "value $(nat 3) 3" backward "$plus" 1 3 - "03$(nat 3)$(nat 3)"
    answers_with "refused 9 at 0: there is no such function" forward "$plus" 2 0 - -
    : > "$scratch/empty"
    answers_with ok check "$scratch/empty"
}

# number32 N, number16 N: a script's numbers (docs/USING.md, "Scripts").
number32() { printf '%08x' "$1"; }
number16() { printf '%04x' "$1"; }

# The calls of a script, in hexadecimal: opens LENGTH RECORD, converts LENGTH FUEL FUNCTION ANCILLAE, rolls_back LENGTH FUEL.
opens() { echo "31$(number32 "$1")$(number16 $((${#2} / 2)))$2"; }
converts() { echo "32$(number32 "$1")$(number16 "$2")$(number16 "$3")$(number16 $((${#4} / 2)))$4"; }
rolls_back() { echo "33$(number32 "$1")$(number16 "$2")"; }

# replays TEXT CALL..: a script of these calls, played with plus and dup, is answered by these lines.
replays() {
    local text=$1
    shift
    printf '%s' "$@" | xxd -r -p > "$scratch/script"
    answers_with "$text" replay "$scratch/plus" "$scratch/script"
}

# answer_lines FILE: seven bytes to a line, as a line of calls and answers has them.
answer_lines() {
    local bytes number detail
    while read -r bytes; do
        number=$((16#${bytes:2:4})) detail=$((16#${bytes:6:8}))
        case ${bytes:0:2} in
            41) echo ok ;;
            42) echo "held $number $detail" ;;
            43) echo "refused $number $detail" ;;
        esac
    done < <(xxd -p -c 7 "$1")
}

# P13 as a script, the ways in which a playing stops, and months of a machine, whose answers are the plain book's. The command lends the
# workspace of the largest fuel, so these months have no call that is short of it.
scripts() {
    local open convert months=$scratch/months
    open=$(opens 64 "$(nat 3)")
    convert=$(converts 64 28 0 "$(nat 2)")
    replays $'ok\nheld 13 28\nrefused 12 8\nheld 9 28\nrefused 19 0\nplayed 5' \
        "$open" "$convert" "$(rolls_back 64 0)" "$(rolls_back 64 28)" "$(rolls_back 64 28)"
    replays $'ok\nplayed 1' "$(opens 131072 "$(nat 3)")"
    replays "malformed at 0: no call stands there" ""
    replays "malformed at 0: no call stands there" "$convert"
    replays "malformed at 16: no call stands there" "$open" 34
    replays "malformed at 16: no call stands there" "$open" "${convert%00}"
    replays "too wide at 16: the call's buffer is longer than 131072 bytes" "$open" "$(rolls_back 131073 28)"
    replays "not opened: refused 20 at 0: 64 conversions stand already, or the bytes do not fit" "$(opens 11 "$(nat 3)")" "$convert"
    replays $'ok\nheld 13 28\ncut at 34: the call\'s buffer would cut the journal\'s fields' "$open" "$convert" "$(rolls_back 31 28)"
    mkdir "$months"
    "$second" months 2 12 4 "$months" > "$scratch/tally"
    status=0
    if grep -qF '(1:' "$scratch/tally"; then status=1; fi
    verdict "the months have no call that is short of workspace" "$status"
    {
        answer_lines "$months/answers"
        echo "played $(($(stat -c %s "$months/answers") / 7))"
    } > "$scratch/expected"
    run replay "$months/program" "$months/script"
    same "$(wc -l < "$scratch/expected") lines of the months of a machine" "$scratch/out" "$scratch/expected"
}

bad_scripts() {
    local plus=$scratch/plus
    complains "No such file or directory" replay "$plus" "$scratch/none"
    complains "No such file or directory" replay "$scratch/none" "$plus"
    complains "Is a directory" replay "$plus" "$scratch"
    complains "usage: corefun check FILE" replay "$plus"
    complains "usage: corefun check FILE" replay "$plus" "$plus" more
    head -c 131073 /dev/zero > "$scratch/long"
    complains "SCRIPT holds over 131072 bytes" replay "$plus" "$scratch/long"
    head -c 131072 /dev/zero > "$scratch/long"
    answers_with "malformed at 0: no call stands there" replay "$plus" "$scratch/long"
    into_full_device replay "$plus" "$scratch/script"
}

# repeated COUNT TEXT
repeated() { printf "$2%.0s" $(seq "$1"); }

# reads HEX HELD ENTRIES: a file of these bytes is answered so by the two readers.
reads() {
    bytes "$1" "$scratch/journal"
    answers_with "$2" nurse "$scratch/journal"
    answers_with "$3" workshop "$scratch/journal"
}

# P13's journal, opened and converted; the longest fields that there are; and what is no journal. FILE may hold zeros behind the fields, up to
# 131072 bytes in all.
journals() {
    local opened converted entry longest malformed="refused 18 at 0: the journal is malformed" zeros
    opened=210009$(nat 3)
    entry=22000d00000000001c$(nat 2)
    converted=21000d$(nat 5)$entry
    reads "$opened" "held $(nat 3) 0" "bytes -"
    reads "$converted" "held $(nat 5) 1" "bytes $entry"
    reads "$converted$(repeated 40 00)" "held $(nat 5) 1" "bytes $entry"
    reads "$converted$entry$entry" "held $(nat 5) 3" "bytes $entry$entry$entry"
    longest=$(repeated 64 "220406ffffffffffff$(repeated 1023 04)00")
    reads "210400$(repeated 1023 04)00$longest" "held $(repeated 1023 04)00 64" "bytes $longest"
    zeros=$(head -c 262144 /dev/zero | tr '\0' 0)
    reads "${opened}${zeros:${#opened}}" "held $(nat 3) 0" "bytes -"
    reads - "$malformed" "$malformed"
    reads 00 "$malformed" "$malformed"
    reads "${opened%00}" "$malformed" "$malformed"
    reads "$opened$opened" "$malformed" "$malformed"
    reads "${converted}0001" "$malformed" "$malformed"
    reads "$opened$(repeated 65 "$entry")" "$malformed" "$malformed"
    reads "$zeros" "$malformed" "$malformed"
    longest="210400$(repeated 1023 04)00$longest"
    lines_with "held ${longest:6:2048} 64"$'\nrefused 17 0\n'"bytes ${longest:2054}"$'\nrefused 17 0\n' \
        < <(printf '%s\n' "nurse 1024 $longest" "nurse 1023 $longest" "workshop 66112 $longest" "workshop 66111 $longest")
}

# Files that are none, or too long, and arguments that are too few or too many.
bad_journals() {
    local reader
    for reader in nurse workshop; do
        complains "No such file or directory" "$reader" "$scratch/none"
        complains "No such file or directory" "$reader" ""
        complains "Is a directory" "$reader" "$scratch"
        complains "usage: corefun check FILE" "$reader"
        complains "usage: corefun check FILE" "$reader" "$scratch/journal" more
        head -c 131073 /dev/zero > "$scratch/long"
        complains "JOURNAL holds over 131072 bytes" "$reader" "$scratch/long"
        head -c 5000000 /dev/zero > "$scratch/longer"
        complains "JOURNAL holds over 131072 bytes" "$reader" "$scratch/longer"
        into_full_device "$reader" "$scratch/journal"
    done
}

# Programs and values over a limit are answered by the engine.
limits() {
    head -c 32769 /dev/zero > "$scratch/long"
    answers_with "refused 3 at 0: too many entries, parameters or bytes" check "$scratch/long"
    head -c 5000000 /dev/zero > "$scratch/longer"
    answers_with "refused 3 at 0: too many entries, parameters or bytes" check "$scratch/longer"
    answers_with "refused 10 at 0: value bytes are malformed, over the limit or wrong in number" \
        forward "$scratch/plus" 1 9 - "$(nat 20000)"
    local zeros
    zeros=$(head -c 131070 /dev/zero | tr '\0' 0)
    answers_with "refused 10 at 0: value bytes are malformed, over the limit or wrong in number" \
        forward "$scratch/plus" 1 9 "$zeros" 00
}

bad_arguments() {
    local plus=$scratch/plus
    complains "usage: corefun check FILE"
    complains "usage: corefun check FILE" nothing
    complains "usage: corefun check FILE" ""
    complains "usage: corefun check FILE" check
    complains "usage: corefun check FILE" check "$plus" more
    complains "usage: corefun check FILE" forward "$plus" 0 1 -
    complains "usage: corefun check FILE" backward "$plus" 0 1 - 00 00
    complains "usage: corefun check FILE" batch more
    complains "No such file or directory" check "$scratch/none"
    complains "No such file or directory" check ""
    complains "Is a directory" check "$scratch"
    complains "File name too long" check "$(head -c 5000 /dev/zero | tr '\0' x)"
    local word
    for word in "" x 65536 -1 +1 1x 99999999999999999999 0x10; do
        complains "FUNCTION is not a decimal number from 0 to 65535" forward "$plus" "$word" 0 - -
        complains "FUEL is not a decimal number from 0 to 65535" backward "$plus" 0 "$word" - -
    done
    for word in "" 0 0g 000 -- "00 00"; do
        complains "ANCILLAE is not hexadecimal" forward "$plus" 0 0 "$word" 00
        complains "VALUE is not hexadecimal" backward "$plus" 0 0 - "$word"
    done
}

# lines_with EXPECTED: standard input is answered so.
lines_with() {
    local status=0
    "$corefun" batch > "$scratch/got" || status=$?
    printf '%s' "$1" > "$scratch/expected"
    if [ "$status" -eq 0 ]; then cmp -s "$scratch/got" "$scratch/expected" || status=1; fi
    if [ "$status" -ne 0 ]; then cut -c1-200 "$scratch/got"; fi
    verdict "the answers $(head -n 1 <<< "$1" | cut -c1-100)" "$status"
}

bad_lines() {
    local zeros long=$'error the line is longer than 262143 bytes\n'
    zeros=$(head -c 262130 /dev/zero | tr '\0' 0)
    lines_with $'error no call of this name\n' < <(printf '\n')
    lines_with $'error word 2 is no bytes in hexadecimal\n' < <(printf 'check 32768 -\r\n')
    lines_with $'error word 2 is no bytes in hexadecimal\n' < <(printf 'check 32768 \0\n')
    lines_with $'error no call of this name\nerror too few or too many words\nerror word 1 is no number in its range\nok\n' \
        < <(printf 'nothing\ncheck 32768\ncheck x -\ncheck 32768 -\n')
    lines_with $'error too few or too many words\nerror too few or too many words\nerror word 1 is no number in its range\n' \
        < <(printf 'nurse 9\nworkshop 9 - -\nnurse x -\n')
    lines_with $'error word 2 is no bytes in hexadecimal\nerror no call of this name\nrefused 18 0\nrefused 18 0\n' \
        < <(printf 'workshop 9 0\nnurses 9 -\nnurse 0 -\nworkshop 0 -\n')
    lines_with $'held 00 0\nrefused 17 0\nbytes -\nheld 00 1\nbytes 220006000000000007\nrefused 17 0\n' \
        < <(printf '%s\n' "nurse 1 21000100" "nurse 0 21000100" "workshop 0 2100010000" "nurse 99999 21000100220006000000000007" \
            "workshop 9 21000100220006000000000007" "workshop 8 21000100220006000000000007")
    lines_with $'refused 3 0\nok\n' < <(printf 'check 999999 %s\ncheck 32768 -\n' "$zeros")
    lines_with "$long"$'ok\n' < <(printf 'check 9999999 %s\ncheck 32768 -\n' "$zeros")
    lines_with "$long"$'ok\n' < <(printf 'check 32768 %s%s%s\ncheck 32768 -' "$zeros" "$zeros" "$zeros")
    lines_with "$long" < <(printf 'check 32768 %s%s%s' "$zeros" "$zeros" "$zeros")
}

# into_full_device ARGUMENT..: an output that takes nothing ends the run with a message, once.
into_full_device() {
    local status=0
    "$corefun" "$@" > /dev/full 2> "$scratch/err" < "${input:-/dev/null}" || status=$?
    [ "$(grep -cF "standard output: No space left on device" "$scratch/err")" = 1 ] || status=1
    verdict "$1 into a full device" "$status"
}

full_output() {
    into_full_device check "$scratch/plus"
    input=$calls into_full_device batch
}

status=0
program || status=$?
verdict "the program is proved" "$status"
status=0
"$corefun" $(cat crates/corefun/args) < crates/corefun/stdin > "$scratch/got" || status=$?
verdict "the program ends on its own standard input" "$status"
same "the program's answers to its own standard input" "$scratch/got" crates/corefun/stdout
status=0
cargo build --quiet --release --offline --manifest-path tests/second/Cargo.toml || status=$?
verdict "the second evaluator" "$status"
batches
singles
cases
scripts
bad_scripts
journals
bad_journals
limits
bad_arguments
bad_lines
full_output
echo "$passed passed, $failed failed"
[ "$failed" -eq 0 ]
