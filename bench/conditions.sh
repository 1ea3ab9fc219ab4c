#!/usr/bin/env bash
# Prints the time of reading 100,000 conditions of four predicates, and how much longer a set of 64 values takes than
# one of a single value. It builds, and so proves, a program of its own.
# shellcheck source=common.sh
. "$(dirname "${BASH_SOURCE[0]}")/common.sh"
own_crate conditions be_base be_model be_expr
build_own conditions 0 all

# measure WORDS: the least seconds of processor time of five runs that read the words 100,000 times
measure() {
    least 5 /dev/null "$own" 100000 "$@"
    [ "$(cat "$room/out.txt")" = 100000 ] || { echo "a condition was refused" >&2; exit 1; }
}

rising="$(seq -s , 101 164)"
falling="$(seq -s , 164 -1 101)"
four="$(measure 'price >= 100 and qty between 3 and 9 and size in {100,200,300} and venue != 7')" || exit 1
one="$(measure 'price in {101}')" && up="$(measure "price in {$rising}")" && down="$(measure "price in {$falling}")" || exit 1
awk -v four="$four" -v one="$one" -v up="$up" -v down="$down" 'BEGIN {
    printf "reading a condition of four predicates | %.2f µs\n", 10 * four
    printf "reading a condition with a set of one value | %.2f µs\n", 10 * one
    printf "reading one with a set of 64 values that rise | %.2f µs\n", 10 * up
    printf "reading one with a set of 64 values that fall | %.2f µs\n", 10 * down
}'
