#!/usr/bin/env bash
# Prints the time of 20,000,000 searches of a tree with 4, 8 and 16 rows at its root, each of which is tested and not
# found, beyond the time of as many searches without a row. It builds, and so proves, a program of its own.
# shellcheck source=common.sh
. "$(dirname "${BASH_SOURCE[0]}")/common.sh"
own_crate search be_base be_model be_index be_shape be_match
build_own search 0

# measure ROWS: the least seconds of processor time of five runs
measure() {
    least 5 /dev/null "$own" "$1"
    [ "$(cat "$room/out.txt")" = "$(($1 * 20000000))" ] || { echo "other rows were tested" >&2; exit 1; }
}

none="$(measure 0)" && four="$(measure 4)" && eight="$(measure 8)" && all="$(measure 16)" || exit 1
awk -v none="$none" -v four="$four" -v eight="$eight" -v all="$all" 'BEGIN {
    printf "searching a tree of one node without a row | %.1f ns\n", 50 * none
    printf "testing 4 rows there | %.1f ns more\n", 50 * (four - none)
    printf "testing 8 rows there | %.1f ns more\n", 50 * (eight - none)
    printf "testing 16 rows there | %.1f ns more\n", 50 * (all - none)
}'
