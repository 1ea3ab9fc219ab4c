#!/usr/bin/env bash
# Prints what `cover` takes over 100,000 rows of the generated kind (bench/generated.awk): of three names the most processor time,
# each the least of three runs, and its memory at most.
# shellcheck source=common.sh
. "$(dirname "${BASH_SOURCE[0]}")/common.sh"
set -o pipefail
use_program
cd "$room" || exit 1
: >none.txt
schema generated >schema.txt
most="$(scaled 100000)"
script generated "$most" 0 | sed 's/^SUB /ROW /' >rows.txt

measure() {
    local place
    for place in 1 2 3; do
        least 3 none.txt "$program" cover schema.txt rows.txt "s$((place * most / 3))" || exit 1
        [ "$(grep -c '^COVER \|^NOT ' out.txt)" = $((most - 1)) ] || fail "not every row has its line"
    done | sort -g | tail -n 1
}
took="$(measure)" && memory="$(peak none.txt "$program" cover schema.txt rows.txt s1)" || exit 1
row "\`cover\` over $(grouped "$most") rows" "$(figure '%.2f s, %.0f MiB of memory at most' "$took, $memory / 1024")"
