#!/bin/sh
# Ten million differential calls (arguments as of the program: --calls N --seed N --out DIR ...).
. "$(dirname "$0")/env.sh"
cargo run --release $MANIFEST $FEATURES --bin differential -- --calls 10000000 "$@"
