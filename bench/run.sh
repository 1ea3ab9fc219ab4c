#!/usr/bin/env bash
# Prints what an event of the generated kind (bench/generated.awk) takes in `run`, which finds a twentieth of the subscriptions, with
# reading the line and writing the reply: processor time, the least of three runs. bench/peers.sh has events that find few.
# shellcheck source=common.sh
. "$(dirname "${BASH_SOURCE[0]}")/common.sh"
use_program
pin=()
! taskset -c 0 true 2>/dev/null || pin=(taskset -c 0)
cd "$room" || exit 1

# event SUBS EVENTS
event() {
    local kept all hits
    script generated "$1" 0 >script.txt && kept="$(least 3 script.txt "${pin[@]}" "$program" run schema.txt)" || exit 1
    script generated "$1" "$2" >script.txt && all="$(least 3 script.txt "${pin[@]}" "$program" run schema.txt)" || exit 1
    hits="$(awk '$1 == "HIT" { hits += $3; events++ } END { printf "%.0f", hits / events }' out.txt)"
    row "an event over $(grouped "$1") subscriptions of which it finds a twentieth, $(grouped "$hits")" "$(figure '%.0f µs' "1e6 * ($all - $kept) / $2")"
}

schema generated >schema.txt
event "$(scaled 10000)" 5000
event "$(scaled 100000)" 500
