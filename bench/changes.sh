#!/usr/bin/env bash
# Prints how many SUBs and UNSUBs a second `run` takes, and what a LIST takes, with how each grows at twice as many: processor time,
# the least of five runs. The conditions are like a market's (bench/market.awk).
# shellcheck source=common.sh
. "$(dirname "${BASH_SOURCE[0]}")/common.sh"
use_program
cd "$room" || exit 1
schema market >schema.txt
most="$(scaled 100000)" twice=$((2 * $(scaled 100000)))
script market "$twice" 0 >subs.txt

# measure SUBS UNSUBS LISTS: the least processor seconds of a session of so many SUBs, UNSUBs in mixed order, and LISTs
measure() {
    {
        head -n "$1" subs.txt
        awk -v subs="$1" -v unsubs="$2" -v lists="$3" 'BEGIN {
            for (i = 0; i < subs; i++) at[i] = i + 1
            seed = 20111
            for (i = subs - 1; i > 0; i--) {
                seed = (seed * 16807) % 2147483647
                j = seed % (i + 1); x = at[i]; at[i] = at[j]; at[j] = x
            }
            for (i = 0; i < unsubs; i++) print "UNSUB s" at[i]
            for (i = 0; i < lists; i++) print "LIST"
        }'
    } >script.txt
    least 5 script.txt "$program" run schema.txt
    [ "$(grep -vc '^OK\|^LIST' out.txt)" -eq 0 ] || fail "a line was refused"
}

sub="$(measure "$most" 0 0)" && subs="$(measure "$twice" 0 0)" || exit 1
unsub="$(measure "$most" "$most" 0)" && unsubs="$(measure "$twice" "$twice" 0)" || exit 1
list="$(measure "$most" 0 20)" || exit 1
row "SUBs a second, of $(grouped "$most")" "$(grouped "$(figure %f "$most / $sub")"); twice as many take $(figure %.2f "$subs / $sub") times as long"
row "UNSUBs a second in mixed order, of $(grouped "$most")" \
    "$(grouped "$(figure %f "$most / ($unsub - $sub)")"); twice as many take $(figure %.2f "($unsubs - $subs) / ($unsub - $sub)") times as long"
row "a LIST of $(grouped "$most") names" "$(figure '%.1f ms' "50 * ($list - $sub)")"
