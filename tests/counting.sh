# Sourced by the test scripts: what passed and what failed, counted in $passed and $failed.
passed=0
failed=0

# verdict NAME STATUS: a failure is told by its name.
verdict() {
    if [ "$2" -eq 0 ]; then
        passed=$((passed + 1))
    else
        failed=$((failed + 1))
        echo "$1: FAILED"
    fi
}

# part NAME COMMAND..: tells a success too.
part() {
    local name=$1 status=0
    shift
    "$@" || status=$?
    verdict "$name" "$status"
    if [ "$status" -eq 0 ]; then echo "$name: ok"; fi
}
