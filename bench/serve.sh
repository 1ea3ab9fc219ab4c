#!/usr/bin/env bash
# Prints how fast `serve` answers over connections to 127.0.0.1. Of conditions and events like a market's (bench/market.awk): round
# trips, lines in bulk, a mixed load. Of conditions of the generated kind (bench/generated.awk), of which more stand in one place of
# the tree: a removal beside a client that sends empty lines alone, and whether each sixteenth reply takes longer than the others,
# where events assign nothing and find nothing. Of both: how long it takes to fill it, and how many rows a search then tests. Of a
# market's: how much longer a change of one session takes beside one call of another, and the processor time of an event but for the
# system's. The clients run on the same machine (bench/client.c), each a thread, and their time counts. Other times are elapsed ones:
# of three runs the middle, of the mixed load one run.
#   bench/serve.sh                          prints the figures
#   bench/serve.sh --table CONNECTIONS..    prints a line `CONNECTIONS TRIPS_A_SECOND` for each of these numbers of connections
# shellcheck source=common.sh
. "$(dirname "${BASH_SOURCE[0]}")/common.sh"
set -o pipefail
use_program
need python3 python3
compiled client client.c
cd "$room" || exit 1
most="$(scaled 100000)" fifth="$(scaled 20000)" tenth="$(scaled 10000)"
seconds="${BENCH_SMALL:+0.3}" seconds="${seconds:-1}"
: >none.txt

# conditions KIND: the schema and the conditions of the servers from here on
conditions() {
    local rows
    schema "$1" >schema.txt
    script "$1" "$most" 0 >subs.txt
    head -n $((most / 2)) subs.txt >subs-half.txt
    for rows in "$most" "$fifth" "$tenth"; do head -n "$rows" subs.txt | sed 's/^SUB/ROW/' >"load-$rows.txt"; done
}

# ask CLIENT'S WORD ROWS SEATS WORD..: what a client says of a new server over so many rows
ask() {
    local word="$1" rows="$2" seats="$3"
    serving "$seats" --load "load-$rows.txt"
    client "$word" "$port" "${@:4}"
    echo "$told"
}

# middle COMMAND..: runs it three times; prints the line whose first number is the middle one
middle() { for _ in 1 2 3; do "$@" || exit 1; done | sort -n | sed -n 2p; }

# trips CONNECTIONS: the trips a second over so many connections, their median and their 99th percentile
trips() { middle ask trips "$tenth" "$1" "$1" "$seconds" events.txt; }

# round_trips TEXT CONNECTIONS
round_trips() {
    local found rate median late
    found="$(trips "$2")" || exit 1
    read -r rate median late <<<"$found"
    row "round trips a second over $1, with $(grouped "$tenth") subscriptions" "$(grouped "$rate"); median $median µs, 99th percentile $late µs"
}

# fill FILE: the seconds that its lines take over one connection to an empty server
fill() {
    serving 1
    client bulk "$port" "$1" "$server"
    echo "$told"
}

# filled FILE: of three times the middle, or the first one where that is over some seconds
filled() {
    local first
    first="$(fill "$1")" || exit 1
    if [ "$(figure %d "${first% *}")" -gt 3 ]; then echo "$first"; else { echo "$first"; fill "$1" && fill "$1"; } | sort -n | sed -n 2p; fi
}

# by_run FILE WORD..: the seconds that its lines take `run`, over pipes
by_run() {
    local idle took piped=(sh -c 'cat | "$@" | cat' sh "$program" run schema.txt "${@:2}")
    idle="$(fastest 3 none.txt "${piped[@]}")" && took="$(fastest 3 "$1" "${piped[@]}")" || exit 1
    [ "$(wc -l <out.txt)" = "$(wc -l <"$1")" ] || fail "not every line has its reply"
    figure '%.4f' "$took - $idle"
}

in_bulk() {
    local took run
    # the process of a server isn't asked for its memory here
    took="$(middle ask bulk "$tenth" 1 events.txt none)" && run="$(by_run events.txt --load "load-$tenth.txt")" || exit 1
    row "events a second in bulk over one connection, and by \`run\` over pipes, with $(grouped "$tenth") subscriptions" \
        "$(grouped "$(figure %f "$most / ${took% *}")") and $(grouped "$(figure %f "$most / $run")"), $(figure %.2f "$run / ${took% *}") times"
}

# filling TEXT
filling() {
    local took took_half run
    run="$(by_run subs.txt)" || exit 1
    if took="$(filled subs.txt)" && took_half="$(filled subs-half.txt)"; then
        took="$(figure '%.2f s, %.2f times what half as many take' "${took% *}, ${took% *} / ${took_half% *}")"
    else
        took='over a minute'
    fi
    row "$(grouped "$most") SUBs $1 in bulk over one connection" "$took; by \`run\` $(figure %.2f "$run") s"
}

# mixed ROWS
mixed() {
    local connections found rate median late rates=() medians=() lates=()
    for connections in 1 4 16; do
        found="$(ask mixed "$1" "$connections" "$connections" "$seconds" events.txt)" || exit 1
        read -r rate median late <<<"$found"
        rates+=("$(grouped "$rate")") medians+=("$median") lates+=("$late")
    done
    row "nine PUBs to one SUB or UNSUB over 1, 4 and 16 connections, with $(grouped "$1") subscriptions: lines a second" \
        "${rates[0]}, ${rates[1]} and ${rates[2]}; medians ${medians[0]}, ${medians[1]} and ${medians[2]} µs, 99th percentiles ${lates[0]}, ${lates[1]} and ${lates[2]} µs"
}

beside() {
    local alone both condition='a0 between 5 and 10 and a1 = 7'
    alone="$(middle ask beside "$most" 2 "$seconds" "$condition" 0)" && both="$(middle ask beside "$most" 2 "$seconds" "$condition" 1)" || exit 1
    row "an UNSUB alone, and beside a client that sends empty lines without a pause, with $(grouped "$most") subscriptions" \
        "medians ${alone% *} and ${both% *} µs, 99th percentiles ${alone#* } and ${both#* } µs"
}

# every ROWS: the median of each sixteenth reply, where that is the longest, and of the others
every() {
    local found
    found="$(middle ask every "$1" 1 "$(figure %.1f "2 * $seconds")" empty.txt)" || exit 1
    echo "${found% *} and ${found#* } µs"
}

sixteenth() {
    local some many
    some="$(every "$fifth")" && many="$(every "$most")" || exit 1
    row "each sixteenth reply, and the others, where nothing changes, with $(grouped "$fifth") and with $(grouped "$most") subscriptions" \
        "medians $some; $many"
}

# user FILE ROWS: the least seconds, but for the system's, of three servers over so many rows that answer these lines
user() {
    local rows="$2"
    for _ in 1 2 3; do
        before=(timeout 300 /usr/bin/time -o "$room/used" -f %U)
        serving 1 --load "load-$rows.txt"
        client bulk "$port" "$1" none
        before=()
        tail -n 1 "$room/used"
    done | sort -n | head -n 1
}

# user_by_run FILE ROWS: likewise of `run`
user_by_run() {
    for _ in 1 2 3; do
        /usr/bin/time -o "$room/used" -f %U "$program" run schema.txt --load "load-$2.txt" <"$1" >out.txt || exit 1
        tail -n 1 "$room/used"
    done | sort -n | head -n 1
}

# processor ROWS: the processor time of an event, but for the system's, by `serve` and by `run`
processor() {
    local served idle run idle_run each
    served="$(user events-many.txt "$1")" && idle="$(user empty.txt "$1")" || exit 1
    run="$(user_by_run events-many.txt "$1")" && idle_run="$(user_by_run empty.txt "$1")" || exit 1
    each="1000000 / $(wc -l <events-many.txt)"
    row "processor time of an event in bulk, but for the system's, with $(grouped "$1") subscriptions, and by \`run\`" \
        "$(figure '%.2f and %.2f µs, %.2f times' "($served - $idle) * $each, ($run - $idle_run) * $each, ($served - $idle) / ($run - $idle_run)")"
}

# tested FILE: the mean of the rows that its replies to COST say were tested
tested() { awk '$1 == "COST" { rows += $4; count++ } END { printf "%.0f", rows / count }' "$1"; }

# tree TEXT: how many rows a search tests once so many conditions are subscribed to, over `serve` and by `run`
tree() {
    local rows served=() run=()
    for rows in $((tenth / 10)) "$tenth" "$most"; do
        { head -n "$rows" subs.txt; cat costs.txt; } >filling.txt
        serving 1
        client answers "$port" 60 filling.txt out.txt
        served+=("$(grouped "$(tested out.txt)")")
        "$program" run schema.txt <filling.txt >out.txt || exit 1
        run+=("$(grouped "$(tested out.txt)")")
    done
    row "rows that a search tests after 1,000, 10,000 and 100,000 SUBs $1, and by \`run\`" \
        "${served[0]}, ${served[1]} and ${served[2]}; ${run[0]}, ${run[1]} and ${run[2]}"
}

# held TEXT CALLS OWN WORD..: how long another session's SUB or UNSUB takes at most beside one of these calls, of which calls.txt has
# so many equal parts, by a session that first sends the lines of OWN
held() {
    local text="$1" calls="$2" own="$3" found
    found="$(for _ in 1 2 3; do
        serving 2 "${@:4}"
        client held "$port" "$calls" calls.txt "$own"
        echo "$told"
    done | sort -n | sed -n 2p)" || exit 1
    row "a small change beside $text of another session, with $(grouped "$most") subscriptions: the longest" "$found µs"
}

holds() {
    local loaded=(--load "load-$most.txt")
    for _ in {1..20}; do echo 'PUB -'; done >calls.txt
    held 'a PUB that finds nothing' 20 empty.txt "${loaded[@]}"
    sed 's/^SUB s/SUB t/' subs.txt | head -n 20 >calls.txt
    cp calls.txt own.txt
    held 'a SUB' 20 empty.txt "${loaded[@]}"
    awk '{ print "UNSUB " $2 }' own.txt >calls.txt
    held 'an UNSUB' 20 own.txt "${loaded[@]}"
    for _ in {1..20}; do echo 'SEND symbol=0 price=50000 volume=999999'; done >calls.txt
    held 'a SEND' 20 empty.txt "${loaded[@]}"
    for _ in {1..5}; do echo "TAIL 0 $most"; done >calls.txt
    held "a TAIL of $(grouped "$most") changes" 5 empty.txt "${loaded[@]}"
    for _ in {1..5}; do echo DUMP; done >calls.txt
    held 'a DUMP' 5 empty.txt "${loaded[@]}"
    for _ in {1..5}; do echo LIST; done >calls.txt
    held 'a LIST of all' 5 subs.txt
    echo QUIT >calls.txt
    # where others have rows, they are taken out one by one
    head -n 1 "load-$most.txt" >load-1.txt
    held 'the leave of all but one' 1 subs.txt --load load-1.txt
    # a look comes due after 1,024 tends, and there is one after 16 replies
    yes 'PUB -' | head -n $((5 * (most / 4 + 1000))) >calls.txt
    held "$(grouped $((most / 4 + 1000))) PUBs that find nothing, and a look for a step," 5 empty.txt "${loaded[@]}"
}

conditions market
script market 0 "$most" >events.txt
for _ in 1 2 3 4; do cat events.txt; done >events-many.txt
script market 0 500 | sed 's/^PUB/COST/' >costs.txt
echo 'PUB -' >empty.txt
if [ "${1-}" = --table ]; then
    for connections in "${@:2}"; do
        found="$(trips "$connections")" || exit 1
        echo "$connections ${found%% *}"
    done
    exit
fi

round_trips 'one connection' 1
round_trips 'four connections' 4
in_bulk
mixed "$fifth"
mixed "$most"
filling "like a market's"
tree "like a market's"
processor "$tenth"
processor "$most"
holds
conditions generated
script generated 0 500 | sed 's/^PUB/COST/' >costs.txt
beside
sixteenth
filling "of the generated kind"
tree "of the generated kind"
