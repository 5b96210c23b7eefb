# Read by the other scripts. The proved library is built (`rt lib` in crates/c_api) and linked; GUST_LIB_DIR names the directory of
# another libc_api.a, and GUST_LIB_DIR=none holds the programs of this package against each other.
set -eu
BENCH=$(cd "$(dirname "$0")/.." && pwd)
FEATURES=""
if [ "${GUST_LIB_DIR:-}" != none ]; then
    if [ -z "${GUST_LIB_DIR:-}" ]; then
        (cd "$BENCH/../crates/c_api" && rt lib >/dev/null)
        GUST_LIB_DIR="$BENCH/../crates/c_api/out"
    fi
    GUST_LIB_DIR=$(cd "$GUST_LIB_DIR" && pwd)
    export GUST_LIB_DIR
    FEATURES="--features library"
fi
MANIFEST="--offline --manifest-path $BENCH/Cargo.toml"
