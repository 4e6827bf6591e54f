#!/usr/bin/env bash
# Builds the library and the driver, and makes COUNT calls (a million if none is said) from SEED (1) on.
#
#     fuzz/run.sh [COUNT [SEED]]
#
# The last line is `passed: COUNT inputs of seed SEED`; anything else is a failure, with another status than 0.
set -euo pipefail
cd "$(dirname "$0")"
library=$(../tools/product.sh library)
built=$(mktemp -d)
trap 'rm -rf "$built"' EXIT
"${CC:-cc}" -O2 -Wall -Wextra -Werror -o "$built/fuzz" fuzz.c "$library"
"$built/fuzz" "${1:-1000000}" "${2:-1}" ../crates/playbook/data/*.diagram
