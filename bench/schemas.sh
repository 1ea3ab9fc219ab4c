#!/usr/bin/env bash
# Prints what it takes to read the greatest schema, 256 attributes of 4,096 symbols each, beside half of it, and to refuse a schema
# whose one line has more symbols than it may: processor time, the least of five runs.
# shellcheck source=common.sh
. "$(dirname "${BASH_SOURCE[0]}")/common.sh"
use_program
cd "$room" || exit 1
: >none.txt

# many ATTRIBUTES SYMBOLS: a schema
many() {
    awk -v attributes="$1" -v symbols="$2" 'BEGIN {
        for (i = 0; i < attributes; i++) {
            printf "sym a%d", i
            for (j = 0; j < symbols; j++) printf " w%d", j
            printf "\n"
        }
    }'
}

# measure STATUS ATTRIBUTES SYMBOLS: the least processor seconds of a session that ends so
measure() {
    many "$2" "$3" >schema.txt
    least 5 none.txt "$program" run schema.txt
    [ "$(cat status)" = "$1" ] || fail "another status than $1"
}

half="$(measure 0 128 4096)" && whole="$(measure 0 256 4096)" && over="$(measure 3 1 1000000)" || exit 1
row "reading the greatest schema, of 256 attributes with 4,096 symbols each" "$(figure '%.2f s, %.2f times what half of it takes' "$whole, $whole / $half")"
row "refusing an attribute of 1,000,000 symbols" "$(figure '%.2f s' "$over")"
