#!/usr/bin/env bash
# Speed of the proved programs beside the plain Rust program of tests/second, in one run on the same input.
# Usage: bash benchmarks/programs.sh [LINES [MESSAGES]]. Prints lines or messages a second of both and the ratio of their times, the best of five runs each.
set -eu
cd "$(dirname "${BASH_SOURCE[0]}")/.."
lines=${1:-2000000}
messages=${2:-200000}
for program in bench decode; do
    bash tests/build.sh "$program" >/dev/null
done
CARGO_TARGET_DIR="$PWD/target/second" cargo build --release --quiet --manifest-path tests/second/Cargo.toml
input=$(mktemp)
trap 'rm -f "$input"' EXIT
# Lines of 40 characters: eight messages of 14 octets in turn, each in two fragments, so that the table is full half of the time.
awk -v n="$lines" 'BEGIN {
    for (i = 0; i < n; i++) {
        header = (int(i / 8) % 2) ? "93" : "11"
        printf "%07X %09d %s000102030405060708\n", i % 8, i, header "AA"
    }
}' >"$input"

# best COMMAND..: the shortest of five runs, in milliseconds
best() {
    local least=0 start end spent
    for _ in 1 2 3 4 5; do
        start=$(date +%s%N)
        "$@" <"$input" >/dev/null
        end=$(date +%s%N)
        spent=$(((end - start) / 1000000))
        if [ "$least" -eq 0 ] || [ "$spent" -lt "$least" ]; then least=$spent; fi
    done
    echo "$((least > 0 ? least : 1))"
}

crates/bench/out/bench <"$input" | tail -n 1
proved=$(best crates/bench/out/bench)
plain=$(best target/second/release/second bench)
awk -v n="$lines" -v a="$proved" -v b="$plain" 'BEGIN {
    printf "bench: proved %d lines/s, plain Rust %d lines/s, ratio %.2f\n", n * 1000 / a, n * 1000 / b, a / b
}'

# Random messages of every kind, sound and damaged.
target/second/release/second messages 1 "$messages" >"$input"
crates/decode/out/decode <"$input" | tail -n 1
proved=$(best crates/decode/out/decode)
plain=$(best target/second/release/second decode)
awk -v n="$messages" -v a="$proved" -v b="$plain" 'BEGIN {
    printf "decode: proved %d messages/s, plain Rust %d messages/s, ratio %.2f\n", n * 1000 / a, n * 1000 / b, a / b
}'
