#!/usr/bin/env bash
# Prints what it takes to read events of 8 and of 200 items with one value each, and to match them against 10,000 conditions on all of
# their attributes, which shows what it takes to look one up: processor time, the least of five runs.
# shellcheck source=common.sh
. "$(dirname "${BASH_SOURCE[0]}")/common.sh"
use_program
cd "$room" || exit 1
for ((attribute = 0; attribute < 256; attribute++)); do echo "int a$attribute 0 1000"; done >schema.txt
most="$(scaled 10000)"

# lines CONDITIONS EVENTS ITEMS: conditions of three predicates on three of the events' attributes, then the events
lines() {
    awk -v conditions="$1" -v events="$2" -v items="$3" '
        function next_below(n) { seed = (seed * 16807) % 2147483647; return seed % n }
        BEGIN {
            seed = 20111
            for (i = 0; i < conditions; i++) {
                first = next_below(items - 2)
                print "SUB s" i " a" first " >= " next_below(1000) " and a" first + 1 " < " next_below(1000) " and a" first + 2 " in {" next_below(1000) "," next_below(1000) "}"
            }
            for (i = 0; i < events; i++) {
                line = "PUB"
                for (j = 0; j < items; j++) line = line " a" j "=" next_below(1001)
                print line
            }
        }'
}

# measure CONDITIONS EVENTS ITEMS: the least processor seconds
measure() {
    lines "$@" >script.txt
    least 5 script.txt "$program" run schema.txt
    [ "$(grep -vc '^OK\|^HIT' out.txt)" -eq 0 ] || fail "a line was refused"
}

# of ITEMS READ MATCHED: so many events are read, and so many matched
of() {
    local read_all none all
    read_all="$(measure 0 "$2" "$1")" && none="$(measure "$most" 0 "$1")" && all="$(measure "$most" "$3" "$1")" || exit 1
    row "reading an event of $1 items" "$(figure '%.2f µs' "1e6 * $read_all / $2")"
    row "reading an event of $1 items, and matching it against $(grouped "$most") conditions" "$(figure '%.0f µs' "1e6 * ($all - $none) / $3")"
}
of 8 100000 2000
of 200 10000 1000
