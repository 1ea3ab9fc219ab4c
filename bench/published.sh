#!/usr/bin/env bash
# Prints how long a search of a published copy takes beside the same search of one copy, at 10,000 random rows; how long an append
# and a publish of one change take, and whether that grows with the list; and the memory of two published copies of 100,000 rows
# beside one. It builds, and so proves, a program of its own.
# shellcheck source=common.sh
. "$(dirname "${BASH_SOURCE[0]}")/common.sh"
own_crate publishedbench be_base be_io be_model be_change be_index be_shape be_match be_score be_insert be_remove be_adjust be_plan be_tree be_copy be_core be_expr be_event be_protocol be_load_files be_published
build_own publishedbench tree 1 1

# measure RUNS WORD NUMBER NUMBER: the least processor seconds of that many runs
measure() {
    least "$1" /dev/null "$own" "$2" "$3" "$4"
    [ "$(cat "$room/status")" = 0 ] || { echo "$2 failed" >&2; exit 1; }
}

searches=200000
tree_made="$(measure 5 tree 10000 0)" && tree="$(measure 5 tree 10000 "$searches")" && found="$(cat "$room/out.txt")" || exit 1
glass_made="$(measure 5 glass 10000 0)" && glass="$(measure 5 glass 10000 "$searches")" || exit 1
[ "$(cat "$room/out.txt")" = "$found" ] || { echo "other rows were found" >&2; exit 1; }
awk -v tree="$(awk -v a="$tree" -v b="$tree_made" 'BEGIN { print a - b }')" \
    -v glass="$(awk -v a="$glass" -v b="$glass_made" 'BEGIN { print a - b }')" -v times="$searches" -v found="$found" 'BEGIN {
    printf "a search of 10,000 rows, of which %d are found | %.0f ns in one copy, %.0f ns in the published one, %.2f times as long\n",
        found / times, 1e9 * tree / times, 1e9 * glass / times, glass / tree
}'

# what is published one by one, and what is appended and then published at once, less the making of the changes; both test each
# change before, by a look-up in a plain copy
count=100000
drawn="$(measure 5 draw "$count" 0)" && drawn_twice="$(measure 5 draw $((2 * count)) 0)" || exit 1
at_once="$(measure 5 append "$count" 0)" || exit 1
each="$(measure 5 write "$count" 0)" && twice="$(measure 5 write $((2 * count)) 0)" || exit 1
awk -v drawn="$drawn" -v drawn_twice="$drawn_twice" -v at_once="$at_once" -v each="$each" -v twice="$twice" -v count="$count" 'BEGIN {
    ratio = (twice - drawn_twice) / (each - drawn)
    printf "an append and a publish of one change, of 100,000 one after another | %.0f ns, of which the publish takes %.0f; twice as many take %.2f times as long\n",
        1e9 * (each - drawn) / count, 1e9 * (each - at_once) / count, ratio
}'

awk -v none="$(peak /dev/null "$own" tree 0 0)" -v one="$(peak /dev/null "$own" tree 100000 0)" \
    -v two="$(peak /dev/null "$own" glass 100000 0)" 'BEGIN {
    printf "memory with 100,000 rows | %.1f MiB in one copy, %.1f MiB in two, %.2f times as much\n", (one - none) / 1024, (two - none) / 1024, (two - none) / (one - none)
}'
