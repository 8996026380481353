#!/bin/sh
# Runs the bench program and the second program on the stored recordings and on random ones, and compares what they print octet for octet.
#   tests/bench/run.sh [SEED [RECORDINGS [LINES]]]
# It builds bench and, from tests/second, the second program.
set -u
cd "$(dirname "$0")/../.." || exit 1
seed=${1:-20260}
recordings=${2:-60}
lines=${3:-3000}
program=bench
. tests/compare.sh

# stored NAME INPUT OUTPUT: all three print what is stored
stored() {
    "$proved" <"$2" >"$work/bench"
    "$second" bench <"$2" >"$work/table"
    "$second" bench-ledger <"$2" >"$work/ledger"
    same "$1 bench" "$3" "$work/bench"
    same "$1 second bench" "$3" "$work/table"
    same "$1 second bench-ledger" "$3" "$work/ledger"
}

stored case crates/bench/stdin crates/bench/stdout
stored every_refusal tests/bench/every_refusal.stdin tests/bench/every_refusal.stdout

# input that comes a few octets at a time, and no input
dd if=tests/bench/every_refusal.stdin bs=13 2>/dev/null | "$proved" >"$work/bench"
same "every_refusal in parts" tests/bench/every_refusal.stdout "$work/bench"
printf 'line answer octets dropped\naccepted 0 delivered 0 dropped 0 held 0\n' >"$work/empty"
"$proved" </dev/null >"$work/bench"
same "no input" "$work/empty" "$work/bench"

i=0
while [ "$i" -lt "$recordings" ]; do
    n=$((seed + i))
    "$second" recording "$n" "$lines" >"$work/lines" || exit 1
    "$proved" <"$work/lines" >"$work/bench"
    "$second" bench <"$work/lines" >"$work/table"
    "$second" bench-ledger <"$work/lines" >"$work/ledger"
    same "recording $n bench against table" "$work/table" "$work/bench"
    same "recording $n table against ledger" "$work/table" "$work/ledger"
    i=$((i + 1))
done

echo "seeds $seed to $((seed + recordings - 1)), $recordings recordings of $lines lines"
finish
