#!/bin/sh
# Compares the product's C library with the reference over random cases, with no process for each case.
#
#     reference/linked.sh [CASES [SEED]]
#
# The library is built by tools/product.sh, or stands in the folder that LIBRARY names. JOBS names how many cases run at a
# time.
set -eu
cd "$(dirname "$0")/.."
cases=${1:-1000000}
seed=${2:-1}
if [ -z "${LIBRARY:-}" ]; then
    library=$(tools/product.sh library)
    LIBRARY=$(dirname "$library")
fi
export LIBRARY
[ -d /dev/shm ] && export TMPDIR=/dev/shm
cargo build --quiet --release --offline --features library --manifest-path reference/Cargo.toml \
    --target-dir reference/target/linked
exec reference/target/linked/release/reference compare-library --seed "$seed" --cases "$cases" --jobs "${JOBS:-3}"
