#!/usr/bin/env bash
# Measures the rows of a whole strip, find, locate and a check, and the second program's rows and check, one after the other on this
# machine.
set -eu
cd "$(dirname "${BASH_SOURCE[0]}")/.."
program=$(scripts/build.sh strip_bench)
cargo build --quiet --release --offline --locked --manifest-path reference/Cargo.toml --target-dir reference/target
for _ in 1 2 3; do
    echo "-- strip_bench"
    "$program" time
    echo "-- second program"
    reference/target/release/reference bench
    reference/target/release/reference bench check
done
