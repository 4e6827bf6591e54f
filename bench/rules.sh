#!/bin/sh
# Measures compiling and solving of rules beside MONA on their negations, and prints a table. Each game is compared with
# MONA's automaton over every row of rounds.
#
#     bench/rules.sh [NAME..]
#
# NAME is a rule of bench/rules by its file; without any, all are measured but `longest`, which is refused.
# The program is built by tools/product.sh, or is the one that PLAYBOOK names. Needs mona, python3 and valgrind.
set -eu
cd "$(dirname "$0")/.."
out=target/bench/rules
for tool in mona python3 valgrind; do
    command -v "$tool" >/dev/null || { echo "bench/rules.sh: $tool is missing; on Debian: apt-get install mona python3 valgrind" >&2; exit 1; }
done
mkdir -p "$out"
ours=$(tools/product.sh program)
: >"$out/empty.book"

# Prints how many million instructions the program executes, or `-` where a plain run takes a second or more.
count() { # MILLISECONDS FILE ARGUMENT..
    if awk -v ms="$1" 'BEGIN { exit ms < 1000 }'; then echo "-"; return; fi
    file=$2
    shift 2
    valgrind --tool=callgrind --callgrind-out-file="$file" "$ours" "$@" >/dev/null 2>"$file.log" || true
    awk '/^summary:/ { printf "%.1f\n", $2 / 1000000 }' "$file"
}

# Prints the row of a rule. Compiling alone is `check` of an empty book, which is refused behind it, with status 1.
row() { # NAME
    rule=$(ls bench/rules/*/"$1.rule" 2>/dev/null) || { echo "bench/rules.sh: no rule of bench/rules is called $1" >&2; exit 1; }
    signals=$(dirname "$rule")/signals
    made=$out/$1
    set -- --rule "$signals" "$rule"
    python3 bench/mona.py places "$signals" "$rule" >"$made.mona"
    "$ours" show "$@" >"$made.game"
    mona -q -u -w "$made.mona" >"$made.automaton"
    python3 bench/agree.py "$signals" "$made.game" "$made.automaton" >"$made.pairs"
    positions=$(sed -n '1s/.* \([0-9]*\) positions*, start.*/\1/p' "$made.game")
    compiled=$(python3 bench/best.py 1 "$ours" check "$@" --book "$out/empty.book")
    solved=$(python3 bench/best.py 0 "$ours" solve "$@")
    theirs=$(python3 bench/best.py 0 mona -q -n "$made.mona")
    compiling=$(count "$compiled" "$made.check.callgrind" check "$@" --book "$out/empty.book")
    solving=$(count "$solved" "$made.solve.callgrind" solve "$@")
    echo "$(basename "$made") $positions $compiling $solving $compiled $solved $theirs" |
        awk '{ printf "| %s | %s | %s | %s | %s | %s | %s | %.2f |\n", $1, $2, $3, $4, $5, $6, $7, $6 / $7 }'
}

echo "| Rule | positions | compiled, million instructions | and solved | compiled, ms | and solved | MONA, ms | solved / MONA |"
echo "|---|---|---|---|---|---|---|---|"
for name in ${*:-follow most next second within later wide broad slowest hunted}; do row "$name"; done
