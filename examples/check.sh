#!/bin/sh
# Checks that each diagram in crates/playbook/data is what its source here makes, and that the copies of examples in the
# crates' folders `data` are no others.
#
#     examples/check.sh
set -eu
cd "$(dirname "$0")/.."
for source in examples/*.txt; do
    name=$(basename "$source" .txt)
    examples/make.py "$source" /dev/stdout | cmp - "crates/playbook/data/$name.diagram"
done
for copy in crates/*/data/*; do
    for example in "examples/${copy##*/}" "crates/playbook/data/${copy##*/}"; do
        if [ -e "$example" ]; then cmp "$example" "$copy"; fi
    done
done
