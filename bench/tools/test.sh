#!/bin/sh
# The bench sheet and the plain book, on the model and on the library, and the harness's own tests: among them that the driver
# replays the scripts of a difference (GUST_DRIVE names another driver; without one, and with GUST_LIB_DIR=none, that is left out).
. "$(dirname "$0")/env.sh"
if [ -n "$FEATURES" ] && [ -z "${GUST_DRIVE:-}" ]; then
    (cd "$BENCH/../crates/drive" && rt run </dev/null >/dev/null)
    GUST_DRIVE="$BENCH/../crates/drive/out/drive"
    export GUST_DRIVE
fi
cargo test $MANIFEST $FEATURES "$@"
