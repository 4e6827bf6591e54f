#!/bin/sh
# Compares the product with the reference over random cases. Without arguments it is bounded: under two minutes, the
# reference's build included, once the product is proved.
#
#     reference/run.sh [CASES [SEED]]
#
# The product's program is built by tools/product.sh, or is the one that PLAYBOOK names. JOBS names how many cases run at a
# time. The files of the cases stand in memory where that can be.
set -eu
cd "$(dirname "$0")/.."
cases=${1:-10000}
seed=${2:-1}
program=$(tools/product.sh program)
[ -d /dev/shm ] && export TMPDIR=/dev/shm
cargo build --quiet --release --offline --manifest-path reference/Cargo.toml
exec reference/target/release/reference compare --seed "$seed" --cases "$cases" --jobs "${JOBS:-3}" --program "$program"
