#!/usr/bin/env bash
# The second program's own tests, and its table against its ledger on random lists of fragment, expiry and release calls.
set -eu
cd "$(dirname "${BASH_SOURCE[0]}")"
export CARGO_TARGET_DIR="$PWD/../../target/second"
cargo test --release --quiet --lib
cargo build --release --quiet
for seed in 1 2 3; do
    "$CARGO_TARGET_DIR/release/second" check-joining "$seed" 300
done
