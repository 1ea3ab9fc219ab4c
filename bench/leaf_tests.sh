#!/usr/bin/env bash
# Prints what a search takes, of 1,000, 10,000, 100,000 and 1,000,000 subscriptions of the generated kind (bench/generated.awk), like a
# market's (bench/market.awk), and like those of a market with twenty attributes (bench/broad_market.awk): processor time as the program
# measures it, the least of seven rounds, of 1,000,000 of three. It builds, and so proves, a program of its own.
#   bench/leaf_tests.sh COMMIT    the same of the crates of an earlier commit beside it, run in turns, and how many times as long that took,
#                                 the middle of the rounds
#   BENCH_LEAF, BENCH_LEAF_BEFORE programs that were built so before, to be measured in place of new ones
# shellcheck source=common.sh
. "$(dirname "${BASH_SOURCE[0]}")/common.sh"
earlier="${1:-}"
[ $# -le 1 ] || fail "usage: bench/leaf_tests.sh [COMMIT]"

# first_of FOLDER..: the first of these folders that there is
first_of() {
    local folder
    for folder in "$@"; do
        [ -d "$folder" ] && echo "$folder" && return
    done
    fail "there is none of $*"
}

# build TREE ROOM: proves and builds the program of that tree's crates in the room, with the tree that grows and the rows of its tests
build() {
    local top="$1" room="$2" crate walks rows crates=()
    for crate in be_base be_io be_model be_index be_expr be_event be_shape be_score be_match be_insert; do
        [ ! -d "$top/crates/$crate" ] || crates+=("$crate")
    done
    walks="$(first_of "$top/crates/worked_help" "$top/crates/worked_walks")" || exit 1
    rows="$(first_of "$top/crates/worked_growth" "$top/crates/worked_trees")" || exit 1
    mkdir -p "$room/crates"
    own_crate leafbench "${crates[@]}"
    local own_folder="$room/crates/leafbench"
    mkdir -p "$own_folder/proofs" "$own_folder/specs"
    cp "$walks/src/grown.rt" "$rows/src/rows.rt" "$own_folder/src"
    sed -i "s/$(basename "$walks")::Grown/crate::grown::Grown/" "$own_folder/src/rows.rt"
    tar -C "$walks/proofs" -cf - . | tar -C "$own_folder/proofs" -xf -
    find "$own_folder/proofs" -name '*.antt' -exec sed -i "s/$(basename "$walks")/leafbench/g" {} +
    sed -i '$s/$/ anyhow/' "$room/crates.txt"
    build_own leafbench 1
}

# A folder of the earlier commit's files stands in the room.
if [ -n "$earlier" ] && [ -z "${BENCH_LEAF_BEFORE:-}" ]; then
    mkdir "$room/earlier"
    (set -o pipefail && git -C "$top" archive "$earlier" | tar -C "$room/earlier" -xf -) || fail "there is no commit $earlier"
    build "$room/earlier" "$room/before" && BENCH_LEAF_BEFORE="$own"
fi
if [ -z "${BENCH_LEAF:-}" ]; then
    build "$top" "$room/now" && BENCH_LEAF="$own"
fi

# shortest PROGRAM: of its rounds, in millionths of a second
shortest() { cut -d ' ' -f 2 "$room/found_$1.txt" | sort -n | awk 'NR == 1 { print $1 / 1000 }'; }

# slower: how many times as long the earlier program took as the other, the middle of the rounds
slower() {
    paste -d ' ' "$room/found_BENCH_LEAF.txt" "$room/found_BENCH_LEAF_BEFORE.txt" | awk '{ print $4 / $2 }' |
        sort -g | sed -n "$(((rounds + 1) / 2))p"
}

# search KIND TEXT SUBS EVENTS TIMES
search() {
    local program round figure
    { schema "$1"; script "$1" "$3" "$4"; } >"$room/script.txt"
    rm -f "$room"/found_*.txt
    for ((round = 0; round < rounds; round++)); do
        for program in BENCH_LEAF BENCH_LEAF_BEFORE; do
            [ -z "${!program:-}" ] || "${!program}" "$5" <"$room/script.txt" >>"$room/found_$program.txt" || fail "${!program} failed"
        done
    done
    [ "$(cut -d ' ' -f 1 "$room"/found_*.txt | sort -u | wc -l)" = 1 ] || fail "other rows were found"
    figure="$(printf '%.2f µs' "$(shortest BENCH_LEAF)")"
    if [ -n "${BENCH_LEAF_BEFORE:-}" ]; then
        figure+="$(printf '; at %s %.2f µs, in the middle %.2f times as long' "${earlier:-an earlier commit}" "$(shortest BENCH_LEAF_BEFORE)" "$(slower)")"
    fi
    row "a search of $(grouped "$3") subscriptions $2" "$figure"
}

for subs in 1000 10000 100000 1000000; do
    rounds=$((subs > 100000 ? 3 : 7))
    search generated "of the generated kind" "$subs" $((subs > 100000 ? 100 : 1000)) $((200000 / subs + 1))
    search market "like a market's" "$subs" 10000 $((500000 / subs + 1))
    search broad_market "like a market's with twenty attributes" "$subs" $((subs > 100000 ? 300 : 3000)) $((300000 / subs + 1))
done
