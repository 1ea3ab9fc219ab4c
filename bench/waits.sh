#!/usr/bin/env bash
# Prints how soon a session of `serve` that waits is told: from another session's SEND until it has its letter in FETCH, and from
# another one's SUB until it has the change in TAIL, over connections to 127.0.0.1, both clients in one process, whose time counts. And
# the processor time of `serve` while 60 sessions wait and nothing comes.
# shellcheck source=common.sh
. "$(dirname "${BASH_SOURCE[0]}")/common.sh"
set -o pipefail
use_program
need python3 python3
schema market >"$room/schema.txt"
seconds="${BENCH_SMALL:+1}" seconds="${seconds:-10}"
python3 "$top/bench/waits.py" "$program" "$room/schema.txt" "$(scaled 5000)" 60 "$seconds" |
    while IFS='|' read -r what figure; do row "$what" "$figure"; done
