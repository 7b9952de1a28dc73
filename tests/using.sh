#!/usr/bin/env bash
# Holds docs/USING.md to what it says: every listing is its file, every refusal's words are the engine's, the journals' bytes are the
# second evaluator's, and every example, a command behind '$' in a console block, prints the lines below it. Examples are answered twice: by the second evaluator, a refusal by
# its number and place, and by the program corefun, to the letter. The last line is 'N passed, M failed'; the exit status
# is 0 only if M is 0.
set -euo pipefail
cd "$(dirname "$0")/.."

root=$PWD
page=docs/USING.md
second=$root/tests/second/target/release/second
# The workspace of the largest fuel.
most=2129888
. tests/counting.sh
scratch=$(mktemp -d)
trap 'rm -rf "$scratch"' EXIT

# listing FILE: the block of the page that says it is the file.
listing() {
    awk -v start="\`\`\`listing $1" '$0 == start { inside = 1; next } /^```$/ { inside = 0 } inside' "$page"
}

listings() {
    local file status
    while IFS= read -r file; do
        status=0
        diff <(listing "$file") "$file" || status=$?
        verdict "listing $file" "$status"
    done < <(sed -n 's/^```listing //p' "$page")
}

# The words of each refusal stand in the engine, in the order of their numbers.
refusals() {
    local status=0
    diff <(awk -F' [|] ' '/^[|] [0-9]+ [|]/ { print $2 }' "$page") \
        <(sed -n 's/.*b"\([^"]*\)".*/\1/p' crates/messages/src/meanings.rt) || status=$?
    verdict "the words of the refusals" "$status"
}

# hexadecimal FILE: its bytes.
hexadecimal() { od -An -v -tx1 "$1" | tr -d ' \n'; }

# converted RECORD ANCILLA: a journal that is opened with the record, then converted by plus, in a buffer of 40 bytes.
converted() {
    local program answer zeros
    program=$(hexadecimal <(examples/bytes.sh examples/programs/plus.txt))
    zeros=$(printf '00%.0s' {1..40})
    answer=$("$second" answer <<< "open $most $program $1 $zeros")
    answer=$("$second" answer <<< "convert $most 100 0 $program $2 ${answer##* }")
    echo "${answer##* }"
}

# journal WHAT BYTES RECORD ANCILLA
journal() {
    local status=0
    diff <(echo "$2") <(converted "$3" "$4") || status=$?
    verdict "$1" "$status"
}

# The page's journals.
journals() {
    local block one=0402040100 two=04020402040100 three=040204020402040100
    block=$(awk '$0 == "```hexadecimal" { inside = 1; next } /^```$/ { inside = 0 } inside' "$page" | sed 's/#.*//' | tr -d ' \n' | tr A-F a-f)
    journal "the journal's bytes" "${block}0000000000000000" "$three" "$two"
    journal "3 and 2" "$(hexadecimal <(examples/bytes.sh examples/journals/three-and-two.txt))" "$three" "$two"
    journal "4 and 1" "$(hexadecimal <(examples/bytes.sh examples/journals/four-and-one.txt))" "0402$three" "$one"
}

# example WHO COMMAND EXPECTED
example() {
    local got status=0
    got=$(cd "$scratch/$1" && PATH="$scratch/$1/bin:$PATH" bash -c "$2" 2>&1) || true
    if [ "$1" = second ]; then set -- "$1" "$2" "$(sed 's/^\(refused [0-9]*\) at \([0-9]*\): .*/\1 \2/' <<< "$3")"; fi
    diff <(echo "$got") <(echo "$3") || status=$?
    verdict "$1: $2" "$status"
}

# examples WHO: all of the page's, one after another in one folder.
examples() {
    local line inside=no command= expected=
    ln -s "$root/examples" "$scratch/$1/examples"
    while IFS= read -r line; do
        if [ "$inside" = no ]; then
            if [ "$line" = '```console' ]; then inside=yes; fi
        elif [ "$line" = '```' ] || [ "${line:0:2}" = '$ ' ]; then
            if [ -n "$command" ]; then example "$1" "$command" "$expected"; fi
            command=${line:2} expected=
            if [ "$line" = '```' ]; then inside=no command=; fi
        else
            expected+=${expected:+$'\n'}$line
        fi
    done < "$page"
}

# The commands, each put to the second evaluator as a line.
second_as_corefun() {
    cat << END
#!/usr/bin/env bash
second=$second
most=$most
$(declare -f hexadecimal)

END
    cat << 'END'
# replay PROGRAM SCRIPT: puts the script's calls one by one, and keeps the journal between them.
replay() {
    local program script journal= call answer length count=0
    program=$(hexadecimal "$1") script=$(hexadecimal "$2")
    while [ -n "$script" ]; do
        length=$((16#${script:2:8}))
        journal+=$(printf '00%.0s' $(seq "$length"))
        journal=${journal:0:2 * length}
        case ${script:0:2} in
            31)
                length=$((2 * 16#${script:10:4}))
                call="open $most $program ${script:14:length}" script=${script:14 + length}
                ;;
            32)
                length=$((2 * 16#${script:18:4}))
                call="convert $most $((16#${script:10:4})) $((16#${script:14:4})) $program ${script:22:length}"
                script=${script:22 + length}
                ;;
            33) call="rollback $most $((16#${script:10:4})) $program" script=${script:14} ;;
        esac
        answer=$("$second" answer <<< "$call $journal")
        case $answer in ok\ * | held\ *) journal=${answer##* } answer=${answer% *} ;; esac
        echo "$answer"
        count=$((count + 1))
    done
    echo "played $count"
}

case $1 in
    replay) replay "$2" "$3" ;;
    check) "$second" answer <<< "check $most $(hexadecimal "$2")" ;;
    forward | backward) "$second" answer <<< "$1 $most 1024 $4 $3 $(hexadecimal "$2") $5 $6" ;;
    nurse | workshop) "$second" answer <<< "$1 $most $(hexadecimal "$2")" ;;
    batch) "$second" answer ;;
esac
END
}

cargo build --quiet --release --offline --manifest-path tests/second/Cargo.toml
listings
refusals
journals

mkdir -p "$scratch/second/bin" "$scratch/corefun/bin"
second_as_corefun > "$scratch/second/bin/corefun"
chmod +x "$scratch/second/bin/corefun"
examples second

if grep -q '^corefun:' crates.txt; then
    ln -s "$root/target/bin/corefun" "$scratch/corefun/bin/corefun"
    examples corefun
else
    echo "The examples by corefun: SKIPPED, there is no crate corefun"
fi

echo "$passed passed, $failed failed"
[ "$failed" -eq 0 ]
