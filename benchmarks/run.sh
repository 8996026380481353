#!/usr/bin/env bash
# Speed of the proved calls beside plain Rust: first call by call through the static library, then the whole programs.
# Usage: bash benchmarks/run.sh [quick | LINES [MESSAGES]]. Prints tables in Markdown; docs/BENCHMARKS.md shows a run and says what was measured.
set -eu
cd "$(dirname "${BASH_SOURCE[0]}")/.."
effort=full
if [ "${1:-}" = quick ]; then
    effort=quick
    set -- 200000 20000
fi
if ! log=$(bash tests/build.sh exports 2>&1); then
    printf '%s\n' "$log" | tail -n 40
    exit 1
fi
cargo run --quiet --release --offline --manifest-path benchmarks/Cargo.toml --target-dir target/exports -- "$effort"
printf '\n## Whole programs\n\n'
bash benchmarks/programs.sh "$@"
