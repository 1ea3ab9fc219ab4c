#!/usr/bin/env bash
# Prints how many events a second Justmeadow answers, and others on the same work: conditions and events like a market's
# (bench/market.awk), over 1,000, 10,000 and 100,000 subscriptions. The others are
#   a plain filter in C (bench/peers/filter.c), which tests all conditions;
#   SQLite by python3's module, in memory: a condition is a row of ranges with an index, an event a prepared query;
#   PostgreSQL, a server of its own on a Unix socket: likewise, by psql, an event a prepared query, or one query for all events;
#   the selectors of ActiveMQ, evaluated in a loop as its broker does (bench/peers/Selectors.java).
# Each answers the same events in their order, for about a second, with one process or thread that works on them, and its hits are
# compared with Justmeadow's. Times are elapsed ones, without the time to take the conditions. What isn't here is left out, and
# standard error says so.
#   bench/peers.sh                   prints the figures
#   bench/peers.sh --table SUBS..    prints a line `SUBS PEER EVENTS_A_SECOND` for each of these numbers of subscriptions
# shellcheck source=common.sh
. "$(dirname "${BASH_SOURCE[0]}")/common.sh"
set -o pipefail
use_program
need python3 python3
compiled client client.c
compiled filter peers/filter.c
cd "$room" || exit 1
seconds="${BENCH_SMALL:+0.2}" seconds="${seconds:-1}"
most="${BENCH_SMALL:+20000}" most="${most:-100000}"
peers=(run serve filter sqlite)
: >none.txt
schema market >schema.txt
script market 0 "$most" >events.txt
# the same events as numbers: symbol, price, volume
awk -F'[ =]' '{ print $3, $5, $7 }' events.txt >events

# absent WHAT PACKAGE: says that a peer is left out
absent() { echo "$(basename "$0"): $1 is left out, since it isn't here; Debian's package $2 has it" >&2; }

# PostgreSQL

postgres_folder="$(find /usr/lib/postgresql -mindepth 2 -maxdepth 2 -name bin 2>/dev/null | sort -V | tail -n 1)"
as_postgres=()
[ "$(id -u)" != 0 ] || as_postgres=(setpriv --reuid=postgres --regid=postgres --clear-groups)

# The server refuses to run as root, so that the room has a folder of its user.
start_postgres() {
    mkdir base && chmod 711 "$room" || return 1
    [ ${#as_postgres[@]} = 0 ] || chown postgres: base || return 1
    "${as_postgres[@]}" "$postgres_folder/initdb" -D "$room/base/data" -A trust -U bench -E UTF8 --locale=C --no-sync >postgres.txt 2>&1 &&
        "${as_postgres[@]}" "$postgres_folder/pg_ctl" -D "$room/base/data" -l "$room/base/log" -s -w -t 30 \
            -o "-c listen_addresses='' -c unix_socket_directories='$room/base' -c fsync=off -c jit=off -c max_parallel_workers_per_gather=0 -c max_connections=5" start >>postgres.txt 2>&1
}

at_end() {
    [ ! -f "$room/base/data/postmaster.pid" ] || "${as_postgres[@]}" "$postgres_folder/pg_ctl" -D "$room/base/data" -s -m immediate stop
}

query() { "$postgres_folder/psql" -h "$room/base" -U bench -d postgres -qAtX -v ON_ERROR_STOP=1; }

if [ ! -x "$postgres_folder/initdb" ]; then
    absent PostgreSQL postgresql
elif ! start_postgres; then
    cat postgres.txt >&2
    fail "PostgreSQL doesn't start"
else
    peers+=(postgres postgres_at_once)
fi

# hits_by_sql SYMBOL PRICE VOLUME: a query for the numbers of the conditions that hold of such an event
hits_by_sql() {
    echo "select coalesce(string_agg(number::text, ' ' order by number), '') from conditions where symbol = $1 and low <= $2 and high >= $2 and least <= $3"
}

fill_postgres() {
    query <<SQL
        set client_min_messages = warning;
        drop table if exists conditions, events;
        create table conditions (number int primary key, symbol int, low int, high int, least int);
        \copy conditions from 'rows' with (delimiter ' ')
        create index on conditions (symbol, low, high, least);
        create table events (number serial primary key, symbol int, price int, volume int);
        \copy events (symbol, price, volume) from 'events' with (delimiter ' ')
        vacuum analyze;
SQL
}

# seconds_of_query INPUT OUTPUT: the elapsed seconds of psql with this input
seconds_of_query() {
    local TIMEFORMAT=%3R
    { time query <"$1" >"$2"; } 2>&1
}

# by_sql NAME FIRST: answers so many events, and then more and more, until that takes some time
by_sql() {
    local begin took count="$2" last=0
    "$1_script" 0 >none.sql && begin="$(seconds_of_query none.sql hits)" || return 1
    while [ "$last" = 0 ]; do
        "$1_script" "$count" >some.sql && took="$(seconds_of_query some.sql hits)" || return 1
        figure '%d %f\n' "$count, $took - $begin" >seconds.txt
        # that is enough, or the next number: for all of the time, if each event takes as long, and not over eight times as many
        read -r last count < <(awk -v took="$took" -v begin="$begin" -v count="$count" -v most="$most" -v seconds="$seconds" 'BEGIN {
            took -= begin
            next_count = took * 8 > seconds ? int(count * seconds / took) : 8 * count
            print (took * 2 > seconds || count == most), (next_count < most ? next_count : most) }')
    done
}

postgres_script() {
    echo "set plan_cache_mode = force_generic_plan;"
    echo "prepare hits(int, int, int) as $(hits_by_sql '$1' '$2' '$3');"
    head -n "$1" events | awk '{ print "execute hits(" $1 ", " $2 ", " $3 ");" }'
}

postgres_at_once_script() { echo "select ($(hits_by_sql e.symbol e.price e.volume)) from events e where e.number <= $1 order by e.number;"; }

by_postgres() { fill_postgres && by_sql postgres "$(scaled 1000)"; }
by_postgres_at_once() { by_sql postgres_at_once "$(scaled 1000)"; }

# the others

jars=/usr/share/java
classes="$jars/activemq-client.jar:$jars/slf4j-api.jar:$jars/slf4j-nop.jar:$jars/geronimo-jms_1.1_spec.jar:$jars/geronimo-j2ee-management-1.1-spec.jar:$jars/hawtbuf.jar"
if [ ! -f "$jars/activemq-client.jar" ]; then
    absent "ActiveMQ" libactivemq-java
elif ! command -v javac >/dev/null; then
    absent "Java's compiler" default-jdk-headless
else
    javac -cp "$classes" -d "$room" "$top/bench/peers/Selectors.java" || fail "Selectors.java can't be compiled"
    peers+=(activemq)
fi

by_activemq() { java -cp "$room:$classes" Selectors rows events "$seconds" hits seconds.txt; }
by_sqlite() { python3 "$top/bench/peers/lite.py" rows events "$seconds" hits seconds.txt; }
by_filter() { ./filter rows events "$seconds" hits seconds.txt; }

# names FILE: the numbers of the names of HITs
names() { sed -e 's/^HIT [0-9]* [0-9]* \?//' -e 's/s//g' "$1"; }

by_run() {
    local filling all
    cat subs.txt events.txt >both.txt
    filling="$(fastest 5 subs.txt "$program" run schema.txt)" && all="$(fastest 5 both.txt "$program" run schema.txt)" || return 1
    grep ^HIT out.txt >run.txt
    names run.txt >hits
    figure '%d %f\n' "$most, $all - $filling" >seconds.txt
}

by_serve() {
    serving 1 --load load.txt
    client answers "$port" "$seconds" events.txt answers.txt
    echo "$told" >seconds.txt
    names answers.txt >hits
}

# rate PEER SUBS: its events a second; the hits of the first one, which is Justmeadow's run, are those that are wanted
rate() {
    local count took
    "by_$1" || fail "$1 failed over $2 subscriptions"
    read -r count took <seconds.txt
    [ "$(figure %d "1000 * $took")" -ge 2 ] || fail "$1 took no time that can be measured, over $2 subscriptions; is the machine busy?"
    [ "$1" != run ] || mv hits wanted
    [ "$1" = run ] || head -n "$count" wanted | cmp -s - hits || fail "$1 has other hits than Justmeadow, over $2 subscriptions"
    figure %.1f "$count / $took"
}

# over SUBS: a line for each peer
over() {
    local peer found
    script market "$1" 0 >subs.txt
    sed 's/^SUB/ROW/' subs.txt >load.txt
    # the same conditions as numbers: number, symbol, least and greatest price, least volume
    awk '{ print substr($2, 2), $5, $9, $11, (NF > 11 ? $15 : 0) }' subs.txt >rows
    for peer in "${peers[@]}"; do
        found="$(rate "$peer" "$1")" || exit 1
        echo "$1 $peer $found"
    done
}

if [ "${1-}" = --table ]; then
    for subs in "${@:2}"; do over "$subs" || exit 1; done
    exit
fi

declare -A texts=(
    [run]='Justmeadow, `run`'
    [serve]='Justmeadow, `serve`, an event a round trip over one connection'
    [filter]='a plain filter in C'
    [sqlite]='SQLite in memory, an event a prepared query'
    [postgres]='PostgreSQL, an event a prepared query'
    [postgres_at_once]='PostgreSQL, one query for all events'
    [activemq]='the selectors of ActiveMQ'
)
sizes=("$(scaled 1000)" "$(scaled 10000)" "$(scaled 100000)")
for subs in "${sizes[@]}"; do over "$subs" || exit 1; done >table.txt
for peer in "${peers[@]}"; do
    # its figures, and the parts of Justmeadow's that they are
    mapfile -t rates < <(awk -v peer="$peer" '$2 == peer { print $3 }' table.txt)
    mapfile -t parts < <(awk -v peer="$peer" '$2 == "run" { run = $3 } $2 == peer { printf "%.2g\n", $3 / run }' table.txt)
    [ "$peer" = run ] && ratio= || ratio=", ${parts[0]}; ${parts[1]}; ${parts[2]} times those of \`run\`"
    row "events a second over $(grouped "${sizes[0]}"), $(grouped "${sizes[1]}") and $(grouped "${sizes[2]}") subscriptions like a market's, by ${texts[$peer]}" \
        "$(grouped "${rates[0]}"); $(grouped "${rates[1]}"); $(grouped "${rates[2]}")$ratio"
done
