# What the comparing tests share; a run.sh sources it at the top of the repository, with `program` set to the proved program's name.
# It builds the second program, makes a folder $work that goes at the end, and counts in $passed and $failed.
proved=$(bash tests/build.sh "$program") || exit 1
second=target/second/release/second
passed=0
failed=0

cargo build --quiet --release --offline --manifest-path tests/second/Cargo.toml --target-dir target/second || exit 1
work=$(mktemp -d) || exit 1
trap 'rm -rf "$work"' EXIT

# same NAME EXPECTED FOUND
same() {
    if cmp -s "$2" "$3"; then
        passed=$((passed + 1))
    else
        failed=$((failed + 1))
        echo "FAILED $1: $(cmp "$2" "$3" 2>&1)"
    fi
}

# the last line, and the test's status
finish() {
    echo "$program: $passed passed, $failed failed"
    [ "$failed" -eq 0 ]
}
