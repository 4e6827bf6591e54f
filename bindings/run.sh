#!/usr/bin/env bash
# Builds the library, the example in C and the one in Rust, runs both, and compares what they print with what they must.
#
#     bindings/run.sh
#
# The last line is `bindings: ok`.
set -euo pipefail
cd "$(dirname "$0")"
library=$(../tools/product.sh library)
built=$(mktemp -d)
trap 'rm -rf "$built"' EXIT

"${CC:-cc}" -std=c99 -O2 -Wall -Wextra -Wpedantic -Werror -o "$built/example_c" example.c "$library"
"$built/example_c" ../examples/bench.signals ../examples/bench.rule | diff example_c.out -

if command -v rustc >/dev/null; then
    rustc --edition 2021 -O -D warnings -L "$(dirname "$library")" -o "$built/example_rs" example.rs
    "$built/example_rs" ../crates/playbook/data/bench.diagram | diff example_rs.out -
else
    echo "bindings: there is no rustc here, so the example in Rust was not built"
fi
echo "bindings: ok"
