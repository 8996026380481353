#!/usr/bin/env bash
# Fuzzes the archive's calls with libFuzzer and AddressSanitizer on one core; not part of the gate.
#   fuzz/run.sh [SECONDS]
# It needs clang with its runtime (Debian: clang, libclang-rt-14-dev). Inputs are kept below target/fuzz, so that the next run goes on from them.
set -eu
cd "$(dirname "${BASH_SOURCE[0]}")/.."
seconds=${1:-60}
work=target/fuzz
mkdir -p "$work/corpus"
archive=$(bash tests/build.sh exports)
clang -std=gnu11 -D_GNU_SOURCE -O1 -g -Wall -Wextra -fsanitize=fuzzer,address,undefined -fno-sanitize-recover=all \
    -Iinclude fuzz/harness.c "$archive" -o "$work/harness"
bash fuzz/seeds.sh "$work/seeds"
"$work/harness" -max_total_time="$seconds" -max_len=2048 -timeout=10 -print_final_stats=1 -verbosity=0 -artifact_prefix="$work/" "$work/corpus" "$work/seeds"
