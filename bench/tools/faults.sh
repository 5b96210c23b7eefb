#!/bin/sh
# The planted faults of faults.txt, and the calls it takes to find each.
. "$(dirname "$0")/env.sh"
cargo run --release $MANIFEST --features faults --bin faults -- "$@"
