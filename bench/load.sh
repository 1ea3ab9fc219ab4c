#!/usr/bin/env bash
# Prints what it takes to begin with a load file of 100,000 rows like a market's (bench/market.awk), and what a DUMP of all rows
# takes: processor time, the least of five runs.
# shellcheck source=common.sh
. "$(dirname "${BASH_SOURCE[0]}")/common.sh"
use_program
cd "$room" || exit 1
: >none.txt
schema market >schema.txt
most="$(scaled 100000)" dumps=5
script market "$most" 0 | sed 's/^SUB/ROW/' >load.txt

# measure INPUT WORD..: the least processor seconds of a session
measure() {
    least 5 "$1" "$program" run schema.txt "${@:2}"
    [ "$(cat status)" = 0 ] || fail "a session ended with $(cat status)"
}

empty="$(measure none.txt)" && loaded="$(measure none.txt --load load.txt)" || exit 1
for ((i = 0; i < dumps; i++)); do echo DUMP; done >dump.txt
dumped="$(measure dump.txt --load load.txt)" || exit 1
[ "$(grep -c "^# DUMP $most $most\$" out.txt)" = "$dumps" ] || fail "a DUMP was another"
row "beginning with a load file of $(grouped "$most") rows" "$(figure '%.2f s' "$loaded - $empty")"
row "a DUMP of $(grouped "$most") rows" "$(figure '%.0f ms' "1e3 * ($dumped - $loaded) / $dumps")"
