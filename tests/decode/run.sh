#!/bin/sh
# Runs decode and the second program on the stored messages and on random and damaged ones, and compares what they print octet for octet.
#   tests/decode/run.sh [SEED [FILES [LINES]]]
# It builds decode and, from tests/second, the second program.
set -u
cd "$(dirname "$0")/../.." || exit 1
seed=${1:-40260}
files=${2:-25}
lines=${3:-8000}
program=decode
. tests/compare.sh

# stored NAME INPUT OUTPUT: both print what is stored
stored() {
    "$proved" <"$2" >"$work/decode"
    "$second" decode <"$2" >"$work/second"
    same "$1 decode" "$3" "$work/decode"
    same "$1 second" "$3" "$work/second"
}

stored program crates/decode/stdin crates/decode/stdout
stored cases tests/decode/cases.stdin tests/decode/cases.stdout
stored pictures tests/decode/pictures.stdin tests/decode/pictures.stdout

# input that comes a few octets at a time, no input, a last line without line feed, and lines at and above the longest
dd if=tests/decode/cases.stdin bs=7 2>/dev/null | "$proved" >"$work/decode"
same "cases in parts" tests/decode/cases.stdout "$work/decode"
printf 'line answer\nmessages 0 refused 0 same 0\n' >"$work/expected"
"$proved" </dev/null >"$work/decode"
same "no input" "$work/expected" "$work/decode"
printf 'line answer\n1 event-request mode=0 eid=0 type=0\nmessages 1 refused 0 same 1\n' >"$work/expected"
printf '200000' | "$proved" >"$work/decode"
same "no line feed" "$work/expected" "$work/decode"
printf 'line answer\n1 refused-21 at 512\n2 refused-0\n3 refused-0\n4 refused-13 at 0\nmessages 0 refused 4 same 0\n' >"$work/expected"
awk 'BEGIN { for (n = 2048; n <= 2050; n++) { s = ""; for (i = 0; i < n; i++) s = s "0"; print s }; print "" }' | "$proved" >"$work/decode"
same "longest lines" "$work/expected" "$work/decode"

i=0
while [ "$i" -lt "$files" ]; do
    n=$((seed + i))
    "$second" messages "$n" "$lines" >"$work/lines" || exit 1
    "$proved" <"$work/lines" >"$work/decode"
    "$second" decode <"$work/lines" >"$work/second"
    same "messages $n" "$work/second" "$work/decode"
    i=$((i + 1))
done

echo "seeds $seed to $((seed + files - 1)), $files files of $lines lines"
finish
