#!/bin/sh
# The benchmark: table and plots into a directory (first argument, default docs/benchmarks of this repository).
. "$(dirname "$0")/env.sh"
OUT=${1:-$BENCH/../docs/benchmarks}
[ $# -gt 0 ] && shift
mkdir -p "$OUT"
cargo run --release $MANIFEST $FEATURES --bin benchmark -- \
    --table "$OUT/table.md" --plot "$OUT/plot.svg" \
    --note "$(rustc --version), release, opt-level 3" --programs model,library "$@"
