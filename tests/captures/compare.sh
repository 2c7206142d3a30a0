#!/bin/sh
# Feeds two capture players the same captures and compares what they print:
#   compare.sh PLAYER SECOND [SEED [ROWS]]
# PLAYER and SECOND are command lines (words parted by spaces), so that a program
# can stand behind an emulator. ROWS is at least 100,000, and so by default.
# All files are made in target/captures; status 0 only if every line agrees and
# every class that the tally counts came up.
set -u
LC_ALL=C
export LC_ALL

if [ $# -lt 2 ] || [ $# -gt 4 ]; then
    echo "usage: $0 PLAYER SECOND [SEED [ROWS]]" >&2
    exit 2
fi
player=$1 second=$2 seed=${3:-1} rows=${4:-100000}
least=100000

here=$(cd "$(dirname "$0")" && pwd -P)
out=$(cd "$here/../.." && pwd -P)/target/captures
work=$out/run
mkdir -p "$out/bin" || exit 2
rm -rf "$work"
mkdir "$work" || exit 2
for tool in generate tally; do
    "${CC:-cc}" -std=c11 -Wall -Wextra -Werror -O2 -o "$out/bin/$tool" "$here/$tool.c" || exit 2
done
"$out/bin/generate" "$seed" "$rows" "$work" || exit 2

# Runs one player on one capture; any status but 0 ends the comparison, of a bad capture too.
play() { # COMMAND CAPTURE LINES
    # shellcheck disable=SC2086
    $1 <"$2" >"$3"
    status=$?
    if [ "$status" -ne 0 ]; then
        echo "seed $seed, $2: '$1' ended with status $status"
        exit 1
    fi
}

count=0 differ=0
for capture in "$work"/*.cap; do
    lines=${capture%.cap}
    play "$second" "$capture" "$lines.second"
    play "$player" "$capture" "$lines.player"
    count=$((count + 1))
    if ! cmp -s "$lines.player" "$lines.second"; then
        differ=$((differ + 1))
        if [ "$differ" -le 5 ]; then
            first=$(cmp "$lines.player" "$lines.second" 2>&1 | sed -n 's/.*line \([0-9]*\).*/\1/p')
            first=${first:-1}
            echo "DIFFERENCE: seed $seed, $capture"
            "$out/bin/tally" --row "$first" "$capture" | sed 's/^/  /'
            echo "  line $first of the player: $(sed -n "${first}p" "$lines.player")"
            echo "  line $first of the second: $(sed -n "${first}p" "$lines.second")"
        fi
    fi
done

"$out/bin/tally" "$work" "$least"
tallied=$?
if [ "$differ" -gt 0 ]; then
    echo "captures: $differ of $count differ, seed $seed"
    exit 1
fi
if [ "$tallied" -ne 0 ]; then
    echo "captures: all $count agree, and the tally FAILED, seed $seed"
    exit 1
fi
echo "captures: all $count agree line by line, seed $seed"
