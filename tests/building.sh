# Sourced by the test scripts, at the top of the repository: what is built of the proved crates, anew only where a source is younger, since it may prove
# them again.

# younger FILE: a source of the crates is younger than the file, or there is no such file.
younger() { [ ! -e "$1" ] || [ -n "$(find crates crates.txt -name out -prune -o -type f -newer "$1" -print -quit)" ]; }

# quiet LOG COMMAND..: runs a command whose words are kept in a log, and shown only where it fails.
quiet() {
    local log=$1
    shift
    "$@" > "$log" 2>&1 < /dev/null || { tail -n 20 "$log" | cut -c1-400; return 1; }
}

# The static library, for C and Rust: target/staticlib/libexports.a.
library() {
    local archive=target/staticlib/libexports.a
    younger "$archive" || return 0
    mkdir -p target/staticlib
    quiet target/library.log env -C crates/exports rt lib && cp crates/exports/out/libexports.a "$archive"
}

# The program: target/bin/corefun. It is run on no calls.
program() {
    local built=target/bin/corefun
    younger "$built" || return 0
    mkdir -p target/bin
    quiet target/program.log env -C crates/corefun rt run -- batch && cp crates/corefun/out/corefun "$built"
}
