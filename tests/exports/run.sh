#!/usr/bin/env bash
# The archive for C and Rust: proved and written anew, linked into both examples, and compared with the second program call by call.
#   tests/exports/run.sh [SEED [CALLS]]
# The C example runs with AddressSanitizer, and plain under valgrind where that is installed; so does a short comparison.
set -u
cd "$(dirname "${BASH_SOURCE[0]}")/../.." || exit 1
seed=${1:-20260}
calls=${2:-20000}
passed=0
failed=0
work=$(mktemp -d) || exit 1
trap 'rm -rf "$work"' EXIT

# passes NAME COMMAND..: counts the command's status, and prints what it wrote if it failed
passes() {
    local name=$1
    shift
    if "$@" >"$work/log" 2>&1; then
        passed=$((passed + 1))
    else
        failed=$((failed + 1))
        echo "FAILED $name:"
        tail -n 40 "$work/log"
    fi
}

# prints_joined COMMAND..: the command prints what the examples print
prints_joined() {
    "$@" >"$work/joined" && cmp "$work/joined" examples/c/join.stdout
}

# an example in C, built with these words for the compiler
build_c() {
    local program=$1
    shift
    gcc -std=c11 -Wall -Wextra -Werror -pedantic -g "$@" -Iinclude examples/c/join.c "$archive" -o "$program"
}

# in_package FOLDER COMMAND..: cargo in one of the packages, whose output goes below target/
in_package() {
    local folder=$1 command=$2
    shift 2
    cargo "$command" --quiet --release --offline --manifest-path "$folder/Cargo.toml" --target-dir target/exports "$@"
}

memchecked() {
    valgrind --quiet --error-exitcode=1 --leak-check=full "$@"
}

archive=$(bash tests/build.sh exports) || exit 1

passes 'C example, build with AddressSanitizer' build_c "$work/join_asan" -O1 -fsanitize=address,undefined -fno-sanitize-recover=all
passes 'C example with AddressSanitizer' prints_joined "$work/join_asan"
passes 'C example, build' build_c "$work/join" -O2
passes 'C example' prints_joined "$work/join"
if command -v g++ >"$work/log"; then
    passes 'header as C++' g++ -Wall -Wextra -Werror -fsyntax-only -x c++ include/semuryeon.h
fi

passes 'Rust example' prints_joined in_package examples/rust run --bin join
passes 'Rust wrapper, known answers' in_package examples/rust test
# comments may say the word
passes 'no unsafe outside one file' test "$(grep -lrwE '^[^/]*unsafe' examples/rust/src examples/rust/tests | xargs)" = examples/rust/src/raw.rs
passes 'comparison, build' in_package tests/exports build
passes "comparison, seed $seed" target/exports/release/compared "$seed" "$calls"
tail -n 1 "$work/log"

if command -v valgrind >"$work/log"; then
    passes 'C example under valgrind' prints_joined memchecked "$work/join"
    passes 'comparison under valgrind' memchecked target/exports/release/compared "$seed" 300
else
    echo 'valgrind is not installed'
fi

echo "exports: $passed passed, $failed failed"
[ "$failed" -eq 0 ]
