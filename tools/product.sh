#!/bin/sh
# Proves and builds what the scripts of this repository try, and prints where it then stands:
#
#     tools/product.sh program|library
#
# The program is crates/playbook/out/playbook; where PLAYBOOK names another one, that is printed and nothing is built. The
# library is crates/cuzzambra/out/libcuzzambra.a. Where nothing has changed, the one takes a second and the other half a minute.
set -eu
cd "$(dirname "$0")/.."
command -v rt >/dev/null || { echo "tools/product.sh: the toolchain's command rt is missing" >&2; exit 1; }
said=$(mktemp)
trap 'rm -f "$said"' EXIT

# Runs rt in a crate. What it prints is shown where it fails.
build() { # CRATE ARGUMENT..
    crate=$1
    shift
    (cd "crates/$crate" && rt "$@") >"$said" || { cat "$said" >&2; exit 1; }
}

case ${1:-} in
program)
    if [ -z "${PLAYBOOK:-}" ]; then build playbook run -- show --diagram data/bench.diagram; fi
    echo "${PLAYBOOK:-$PWD/crates/playbook/out/playbook}"
    ;;
library)
    build cuzzambra lib
    echo "$PWD/crates/cuzzambra/out/libcuzzambra.a"
    ;;
*)
    echo "usage: tools/product.sh program|library" >&2
    exit 2
    ;;
esac
