#!/usr/bin/env bash
# Builds a proved program or the static library, where it isn't built, and prints its path.
#   tests/build.sh NAME          crates/NAME/out/NAME, or crates/NAME/out/libNAME.a
set -u
cd "$(dirname "${BASH_SOURCE[0]}")/.." || exit 1
name=$1
if grep -q "^$name staticlib:" crates.txt; then
    built=crates/$name/out/lib$name.a
    command=lib
else
    built=crates/$name/out/$name
    command=run
fi
log=$(mktemp) || exit 1
trap 'rm -f "$log"' EXIT
# A program is run once, on no input, as rt builds it in order to run it.
if ! (cd "crates/$name" && rt "$command" </dev/null) >"$log" 2>&1 || [ ! -e "$built" ]; then
    tail -n 40 "$log" >&2
    echo "$name: not built" >&2
    exit 1
fi
echo "$built"
