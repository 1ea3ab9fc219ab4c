#!/usr/bin/env bash
# Prints how long a change at a desk takes, by one seat over two trees, where a thousand rows live and where the rows grow; how
# long a leave takes; and the memory of an entry of the list and of a live subscription, with both copies. The rows are narrow ranges
# on one attribute: many stand in leaves of the tree that can't be divided, where a removal finds its row by hints of ids.
# It builds, and so proves, a program of its own.
# shellcheck source=common.sh
. "$(dirname "${BASH_SOURCE[0]}")/common.sh"
own_crate deskbench be_base be_io be_model be_change be_index be_shape be_match be_score be_insert be_remove be_adjust be_plan be_tree be_copy be_core be_board be_mail be_expr be_event be_protocol be_published be_desk
build_own deskbench only 1 0

# measure RUNS WORD NUMBER NUMBER: the least processor seconds of that many runs
measure() {
    least "$1" /dev/null "$own" "$2" "$3" "$4"
    [ "$(cat "$room/status")" = 0 ] || { echo "$2 failed" >&2; exit 1; }
}

# memory WORD NUMBER NUMBER: the most memory of one run, in kB
memory() { peak /dev/null "$own" "$1" "$2" "$3"; }

# changes WORD COUNT LIVE: what so many changes take, and twice as many
changes() {
    local drawn once twice
    drawn="$(measure 3 drawing "$2" 0)" || exit 1
    once="$(measure 3 "$1" "$2" 0)" && twice="$(measure 3 "$1" $((2 * $2)) 0)" || exit 1
    awk -v live="$3" -v drawn="$drawn" -v once="$once" -v twice="$twice" -v count="$2" 'BEGIN {
        printf "a change at the desk, of %d of which %s | %.0f ns, and some %.0f ns to read what is asked; twice as many take %.2f times as long\n",
            count, live, 1e9 * (once - drawn) / count, 1e9 * drawn / count, twice / once
    }'
}
count=1000000
changes bounded "$count" "1,000 rows live" || exit 1
changes growing 100000 "a third live in the end" || exit 1

# leave OWN OTHERS: the processor seconds of a leave of so many rows, beside so many of another seat
leave() {
    local left stayed
    stayed="$(measure 5 staying "$1" "$2")" && left="$(measure 5 leaving "$1" "$2")" || exit 1
    awk -v a="$left" -v b="$stayed" 'BEGIN { print a - b }'
}
one="$(leave 100000 1)" && two="$(leave 200000 1)" && beside="$(leave 100000 100000)" && alone="$(leave 100000 0)" || exit 1
awk -v one="$one" -v two="$two" -v beside="$beside" -v alone="$alone" 'BEGIN {
    printf "a leave of 100,000 rows beside one of another seat | %.0f ms, %.0f ns a row; of 200,000: %.2f times as long; beside 100,000: %.2f times as long; beside none: %.2f times as long\n",
        1e3 * one, 1e9 * one / 100000, two / one, beside / one, alone / one
}'
awk -v once="$(memory bounded "$count" 0)" -v twice="$(memory bounded $((2 * count)) 0)" -v live="$(memory only 100000 0)" -v lives="$(memory only 200000 0)" -v count="$count" 'BEGIN {
    printf "memory of an entry of the list, where half of them subscribe and 1,000 rows live | %.0f bytes\n", 1024 * (twice - once) / count
    printf "memory of a live subscription, with its entry | %.0f bytes\n", 1024 * (lives - live) / 100000
}'
