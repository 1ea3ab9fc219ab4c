#!/usr/bin/env bash
# Measures what tells a user something, and writes bench/RESULTS.md: each figure with the script that printed it, and with the commit,
# the date and the machine at the head. The five figures that a user decides by also go into README.md, between the lines
# `<!-- figures: by bench/results.sh -->` and `<!-- end of figures -->`. It takes some minutes, on a machine without other work.
#   bench/results.sh            writes both files
#   bench/results.sh --print    prints them, and writes nothing
# shellcheck source=common.sh
. "$(dirname "${BASH_SOURCE[0]}")/common.sh"
set -o pipefail
use_program
export BENCH_PROGRAM="$program"
scripts=(peers run changes memory serve waits drill follow cluster load cover)
failed=()

for script in "${scripts[@]}"; do
    echo "$script .." >&2
    timeout 900 bash "$top/bench/$script.sh" >"$room/$script.rows" || failed+=("$script")
done

processors() { echo "$(nproc) processors ($(awk -F ': ' '/^model name/ { print $2; exit }' /proc/cpuinfo))"; }

machine() {
    echo "$(processors), $(awk '/^MemTotal/ { printf "%.0f GiB", $2 / 1048576 }' /proc/meminfo) of memory, $(uname -sr)"
}

results() {
    local script
    cat <<HEAD
# What was measured

- Program: $(stated); its SHA-256 begins with $(sha256sum "$program" | cut -c 1-16).
- Machine: $(machine).

\`bench/results.sh\` writes this page anew each time. The head of each script says what it measures. The figures are no promise: on another machine, or beside other work, they are others. The pictures in \`bench/plots\` are drawn by \`bench/plots.sh\`.

| What | Figure | Script |
|---|---|---|
HEAD
    for script in "${scripts[@]}"; do
        awk -F ' [|] ' -v script="$script" '{ print "| " $1 " | " $2 " | `bench/" script ".sh` |" }' "$room/$script.rows"
    done
    [ ${#failed[@]} = 0 ] || printf '\nThese scripts ended with a fault, and rows of theirs are missing: %s.\n' "${failed[*]}"
}

# taken SCRIPT WHAT: the figure of that script's first row whose text has these words
taken() { awk -F ' [|] ' -v what="$2" 'index($1, what) { print $2; exit }' "$room/$1.rows"; }

# by_peer WORDS PLACE: of the peer whose text has these words the figure over the number of subscriptions at this place
by_peer() { taken peers "$1" | awk -F '; ' -v place="$2" '{ sub(/, .*/, "", $3); print $place }'; }

# events PLACE: what each peer answers, as cells of a table
events() {
    local all
    all="$(by_peer 'one query for all' "$1")"
    echo "$(by_peer 'Justmeadow, `run`' "$1") | $(by_peer 'PostgreSQL, an event' "$1")${all:+; $all in one query} | $(by_peer SQLite "$1") | $(by_peer ActiveMQ "$1") | $(by_peer 'plain filter' "$1")"
}

# first SCRIPT WHAT: of a figure that has several parts the first
first() { taken "$1" "$2" | sed 's/;.*//'; }

figures() {
    cat <<TABLE

| What | Justmeadow | PostgreSQL | SQLite | ActiveMQ selectors | a plain filter |
|---|---|---|---|---|---|
| events a second over $(grouped "$(scaled 10000)") subscriptions, \`run\` | $(events 2) |
| events a second over $(grouped "$(scaled 100000)") subscriptions, \`run\` | $(events 3) |
| round trips a second of \`serve\`, one client and four | $(first serve 'one connection') and $(first serve 'four connections') | | | | |
| \`SUB\` lines a second, \`run\` | $(first changes SUBs) | | | | |
| memory of a live subscription of 2.5 predicates, \`run\` and \`serve\` | $(taken memory 'live subscription') | | | | |

The subscriptions and events are like a market's, and the same for all. Measured at $(stated), on $(processors). [bench/RESULTS.md](bench/RESULTS.md) has all figures.

TABLE
}

results >"$room/RESULTS.md"
figures >"$room/figures"
if [ "${1-}" = --print ]; then
    cat "$room/RESULTS.md"
    echo
    cat "$room/figures"
else
    cp "$room/RESULTS.md" "$top/bench/RESULTS.md"
    if grep -q '^<!-- figures: by bench/results.sh -->$' "$top/README.md" && grep -q '^<!-- end of figures -->$' "$top/README.md"; then
        sed -i -e '/^<!-- figures: /,/^<!-- end of figures/{//!d}' -e "/^<!-- figures: /r $room/figures" "$top/README.md"
    else
        failed+=('README.md has no lines for the figures')
    fi
fi
[ ${#failed[@]} = 0 ] || fail "${failed[*]}"
