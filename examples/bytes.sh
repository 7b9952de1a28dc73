#!/usr/bin/env bash
# examples/bytes.sh LISTING: writes the bytes of a listing, hexadecimal with comments behind '#', to standard output.
set -euo pipefail
digits=$(sed 's/#.*//' "$1" | tr -d ' \n')
[[ $digits =~ ^([0-9A-Fa-f][0-9A-Fa-f])*$ ]] || { echo "$1: not hexadecimal" >&2; exit 1; }
printf "$(sed 's/../\\x&/g' <<< "$digits")"
