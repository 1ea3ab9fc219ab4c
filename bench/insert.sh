#!/usr/bin/env bash
# Prints how long a tree takes to get 50,000 and 100,000 rows of one to four random predicates over ten attributes, and
# 10,000 and 20,000 rows that are all stuck at one node, with the ratio for twice the rows. The rows are made in that
# time too. Then how long it takes to take 50,000 and 100,000 such rows out again in mixed order, as the program measures it by
# the processor's time: the middle one of nine runs, of which each of 50,000 is followed by one of 100,000. What the cache does
# is told from the work by two more lines: the time of only reading the rows in that order, and, where valgrind is there,
# the instructions of the removals.
# It builds, and so proves, a program of its own.
# shellcheck source=common.sh
. "$(dirname "${BASH_SOURCE[0]}")/common.sh"
own_crate insertbench be_base be_model be_shape be_score be_insert be_remove
sed -i '$s/$/ anyhow/' "$room/crates.txt"
build_own insertbench rows 1

# measure KIND ROWS: the least seconds of processor time of five runs
measure() {
    least 5 /dev/null "$own" "$1" "$2"
    [ "$(cut -d ' ' -f 1 "$room/out.txt")" = "$2" ] || { echo "other rows were placed" >&2; exit 1; }
}

# take ROWS: the nanoseconds that it takes to take them
take() {
    local left took _
    read -r left took _ < <("$own" taken "$1")
    [ "$left" = 0 ] || { echo "some rows were not taken" >&2; exit 1; }
    echo "$took"
}

# read_rows ROWS: the nanoseconds that it takes to read them in the same order
read_rows() {
    local took lying _
    read -r _ took lying < <("$own" read "$1")
    [ "$lying" = "$1" ] || { echo "some rows were not read" >&2; exit 1; }
    echo "$took"
}

# middle FILE: the middle one of its nine numbers
middle() {
    sort -n "$1" | sed -n 5p
}

half="$(measure rows 50000)" && all="$(measure rows 100000)" || exit 1
stuck_half="$(measure stuck 10000)" && stuck_all="$(measure stuck 20000)" || exit 1
for _ in 1 2 3 4 5 6 7 8 9; do
    take 50000 >>"$room/half.txt" && take 100000 >>"$room/all.txt" || exit 1
    read_rows 50000 >>"$room/half_read.txt" && read_rows 100000 >>"$room/all_read.txt" || exit 1
done
awk -v half="$half" -v all="$all" -v stuck_half="$stuck_half" -v stuck_all="$stuck_all" \
    -v out_half="$(middle "$room/half.txt")" -v out_all="$(middle "$room/all.txt")" \
    -v read_half="$(middle "$room/half_read.txt")" -v read_all="$(middle "$room/all_read.txt")" 'BEGIN {
    printf "placing 100,000 random rows in a tree | %.3f s, %.2f times what 50,000 take\n", all, all / half
    printf "placing 20,000 stuck rows at one node | %.3f s, %.2f times what 10,000 take\n", stuck_all, stuck_all / stuck_half
    printf "taking 100,000 random rows out of a tree in mixed order | %.3f s, %.2f times what 50,000 take\n", out_all / 1e9, out_all / out_half
    printf "only reading these rows in the same order | %.3f s, %.2f times what 50,000 take\n", read_all / 1e9, read_all / read_half
}'

# counted KIND ROWS: the instructions of a run
counted() {
    valgrind --tool=callgrind --callgrind-out-file=/dev/null "$own" "$1" "$2" 2>&1 | awk '/Collected/ { print $NF }'
}

command -v valgrind >/dev/null || exit 0
awk -v a="$(counted kept 50000)" -v b="$(counted taken 50000)" -v c="$(counted kept 100000)" -v d="$(counted taken 100000)" 'BEGIN {
    printf "its instructions | %.1f million, %.2f times those of 50,000\n", (d - c) / 1e6, (d - c) / (b - a)
}'
