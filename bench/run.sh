#!/bin/sh
# Counts the instructions that playbook and the plain Rust program execute on the worst diagrams, and prints their ratio; then
# the time of the slowest pair, and the table of bench/rules.sh.
#
#     bench/run.sh
#
# The program is built by tools/product.sh, or is the one that PLAYBOOK names. Needs rustc, python3, valgrind and mona.
set -eu
cd "$(dirname "$0")/.."
out=target/bench
for tool in rustc python3 valgrind; do
    command -v "$tool" >/dev/null || { echo "bench/run.sh: $tool is missing" >&2; exit 1; }
done
mkdir -p "$out"
ours=$(tools/product.sh program)
rustc --edition 2024 -C opt-level=3 -o "$out/plain" bench/plain/plain.rs
python3 bench/make.py "$out"

# Prints how many instructions the program NAME executes on the diagram CASE; its table and book stay in target/bench.
count() { # CASE NAME PROGRAM
    valgrind --tool=callgrind --callgrind-out-file="$out/$1.$2.callgrind" "$3" solve --diagram "$out/$1.diagram" \
        --book "$out/$1.$2.book" >"$out/$1.$2.table" 2>"$out/$1.$2.log" || { cat "$out/$1.$2.log" >&2; exit 1; }
    awk '/^summary:/ { print $2 }' "$out/$1.$2.callgrind"
}

for case in chain full; do
    a=$(count $case ours "$ours")
    b=$(count $case plain "$out/plain")
    cmp "$out/$case.ours.book" "$out/$case.plain.book"
    cmp "$out/$case.ours.table" "$out/$case.plain.table"
    awk -v name=$case -v a="$a" -v b="$b" 'BEGIN { printf "%-6s playbook %.0f, plain %.0f, ratio %.3f\n", name, a, b, a / b }'
done

echo "chain and one, paired: $(python3 bench/best.py 0 "$ours" solve --diagram "$out/chain.diagram" --diagram "$out/one.diagram") ms"
PLAYBOOK=$ours bench/rules.sh
