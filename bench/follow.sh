#!/usr/bin/env bash
# Prints how many lines of a feed a second `follow` takes, of 1,000,000 changes of which a fifth stays live, and its
# memory at most beside that of `run` which made the same changes; and how many `mirror` takes, with a thousand events a second beside.
# The rates are medians of five rounds, in each of which the two run one after the other.
# shellcheck source=common.sh
. "$(dirname "${BASH_SOURCE[0]}")/common.sh"
use_program
cd "$room" || exit 1
changes="$(scaled 1000000)"
echo 'int price 0 1000' >schema.txt
# of each ten changes, six subscribe, and four remove; a file has a limit of 64 MiB, so the lines are short
awk -v most="$changes" 'BEGIN {
    for (n = 0; n < most; n++) {
        kind = n % 10
        if (kind < 6) { name = "s" n; print "SUB " name " price = " n % 1000; kept[kind] = name }
        else print "UNSUB " kept[kind - 6]
    }
}' >script.txt
awk '{ if ($1 == "SUB") print "AT " NR - 1 " SUB 1 " NR - 1 " " $2 " " $3 " " $4 " " $5; else print "AT " NR - 1 " UNSUB 1 " NR - 1 " " $2 }' script.txt >feed
echo 'PUB price=1' >in.txt
need python3 python3
# each round has one run of each, one after the other: `FOLLOW MIRROR SPENT MOST`, what they took and, of the mirror, processor
# seconds and memory
rounds() {
    local round taken
    for ((round = 0; round < 5; round++)); do
        taken="$(fastest 1 in.txt "$program" follow schema.txt feed)"
        [ "$(cat status)" = 0 ] || fail "follow ended with $(cat status): $(cat err.txt)"
        echo "$taken $(timeout 90 python3 "$top/bench/taken.py" "$program" "$room/schema.txt" "$room/feed" "$changes")"
    done
}
rounds >rounds.txt
[ "$(awk 'NF == 4' rounds.txt | wc -l)" = 5 ] || fail "a follower or a mirror failed"
# median EXPRESSION: the median over the rounds, by awk's arithmetic
median() { awk "{ print $1 }" rounds.txt | sort -n | sed -n 3p; }

seconds="$(median '$1')"
follower="$(peak in.txt "$program" follow schema.txt feed)" && leader="$(peak script.txt "$program" run schema.txt)" || exit 1
row "lines of a feed a second, by \`follow\`, of $(grouped "$changes"), the median of five runs" \
    "$(grouped "$(figure %f "$changes / $seconds")"); $(figure '%.0f MiB of memory at most, and %.0f by `run` with the same changes' "$follower / 1024, $leader / 1024")"
row "lines of a feed a second, by \`mirror\` with 1,000 events a second beside, of $(grouped "$changes"), the median of five runs" \
    "$(grouped "$(figure %f "$changes / $(median '$2')")"), $(figure %.2f "$(median '$1 / $2')") times those of \`follow\`, $(figure '%.1f processors; %.0f MiB of memory at most' "$(median '$3 / $2'), $(median '$4') / 1024")"
