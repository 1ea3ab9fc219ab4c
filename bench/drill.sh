#!/usr/bin/env bash
# Prints how many events a second `drill` answers of 1, 2 and 4 files over 10,000 subscriptions, each file on a processor of its own,
# how much more processor time an event takes at four files than at one, and how much longer three such files take beside a file
# that writes; of the generated kind (bench/generated.awk) and like a market's (bench/market.awk). All times are less those of as
# many empty files; each figure is the middle of 15 rounds. An elapsed time has that of the transcripts in it, which one thread writes
# at the end. Other work on the machine spoils the elapsed times most. The processor time at four files also stands beside that of
# four programs at the same time with a file each, which share nothing: they tell what the machine itself takes where four processors
# work. A round in which the file that writes ends after the others isn't counted.
# shellcheck source=common.sh
. "$(dirname "${BASH_SOURCE[0]}")/common.sh"
use_program
subs="$(scaled 10000)"
[ "$(nproc)" -ge 4 ] || echo "$(basename "$0"): four processors are wanted, and there are $(nproc)" >&2
rounds=15
cd "$room" || exit 1
: >none

# prepare KIND EVENTS: a schema, a load file, and files of so many events, each with its own
prepare() {
    schema "$1" >schema.txt
    script "$1" "$subs" 0 | sed 's/^SUB/ROW/' >load.txt
    script "$1" 0 $((4 * $2)) >events
    split -l "$2" --numeric-suffixes=1 -a 1 events reads
}

# took FILE..: the elapsed seconds of one `drill` of them, and those of all processors
took() {
    local TIMEFORMAT='%R %U %S' seconds
    seconds="$({ time "$program" drill schema.txt 0 "$@" --load=load.txt >out 2>err; } 2>&1)" || fail "$(cat err)"
    sed '/^== LOG/,$d' out | grep -v '^HIT\|^OK\|^==' >others
    [ ! -s others ] || fail "a line has another reply: $(head -n 1 others)"
    echo "$seconds" | awk '{ print $1, $2 + $3 }'
}

# took_apart FILE..: the same of as many programs at the same time, with a file each
took_apart() {
    local TIMEFORMAT='%R %U %S' seconds
    seconds="$({ time run_apart "$@"; } 2>&1)" || fail "$(cat err)"
    [ "$(cat out[1-9] | grep -c '^HIT')" = "$(cat "$@" | wc -l)" ] || fail "a line has another reply"
    echo "$seconds" | awk '{ print $1, $2 + $3 }'
}

# run_apart FILE..: whether all of them ended well
run_apart() {
    local file started failed=0
    local -a programs=()
    for file in "$@"; do
        "$program" drill schema.txt 0 "$file" --load=load.txt >"out$((${#programs[@]} + 1))" 2>>err &
        programs+=($!)
    done
    for started in "${programs[@]}"; do
        wait "$started" || failed=1
    done
    return "$failed"
}

# ends_early: whether in the last transcript the fourth session, which writes, has left before the others
ends_early() { [ "$(sed -n '/^== LOG/,$p' out | grep '^BYE' | head -n 1 | cut -d ' ' -f 2)" = 4 ]; }

# measure KIND TEXT EVENTS CHANGES: the rows of a kind, with so many events a file. The writer's condition is one that hardly an event
# satisfies.
measure() {
    local one two four alone apart condition times late=0
    prepare "$1" "$3"
    condition="price < 5 and volume < 5"
    [ "$1" = market ] || condition="a0 < 5 and a1 < 5"
    awk -v most="$4" -v condition="$condition" 'BEGIN { for (i = 1; i <= most / 2; i++) print "SUB w " condition "\nUNSUB w" }' >writes
    # a row of pairs of seconds: 1, 2 and 4 files, and 4 in programs of their own, each behind as many empty ones; then three files
    # beside an empty and beside a writing one
    : >rows
    while [ "$(wc -l <rows)" -lt "$rounds" ]; do
        times="$(took none) $(took reads1) $(took none none) $(took reads1 reads2)"
        times+=" $(took none none none none) $(took reads1 reads2 reads3 reads4)"
        times+=" $(took_apart none none none none) $(took_apart reads1 reads2 reads3 reads4)"
        times+=" $(took reads1 reads2 reads3 none) $(took reads1 reads2 reads3 writes)"
        [ "$(wc -w <<<"$times")" = 20 ] || fail "a run failed"
        if ends_early; then
            echo "$times" >>rows
        else
            late=$((late + 1))
            [ "$late" -le $((2 * rounds)) ] || fail "the file that writes ends after the others"
        fi
    done
    one="$(middle "$3" 'events / ($3 - $1)')" two="$(middle "$3" '2 * events / ($7 - $5)')" four="$(middle "$3" '4 * events / ($11 - $9)')"
    row "events a second of \`drill\` of 1, 2 and 4 files over $(grouped "$subs") subscriptions $2" "$(grouped "$one"), $(grouped "$two") and $(grouped "$four")"
    alone="$(figure '%.2f times that at one' "$(middle "$3" '($12 - $10) / 4 / ($4 - $2)')")"
    apart="$(figure '%.2f times that in 4 programs with a file each' "$(middle "$3" '($12 - $10) / ($16 - $14)')")"
    row "processor time an event at 4 files, $2" "$alone, $apart"
    row "3 files $2 beside one that changes $(grouped "$4") times" "$(figure '%.2f times as long as alone' "$(middle "$3" '($19 - $9) / ($17 - $9)')")"
}

# middle EVENTS EXPRESSION: of the rows
middle() { awk -v events="$1" "{ print $2 }" rows | sort -g | sed -n "$(((rounds + 1) / 2))p"; }

measure generated "of the generated kind" "$(scaled 20000)" "$(scaled 10000)"
measure market "like a market's" "$(scaled 300000)" "$(scaled 100000)"
