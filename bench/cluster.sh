#!/usr/bin/env bash
# Prints what mirrors add, by the example of a cluster (examples/cluster) on this machine: events a second of a leader alone and with 1,
# 2 and 3 mirrors beside it, each asked in bulk over one connection at once, and how many processors that took; and how long it takes
# from a leader's OK until a mirror's n has it, of a hundred changes one after another, through Redis. 10,000 conditions like a market's
# (bench/market.awk). Needs Debian's redis-server and python3-redis.
# shellcheck source=common.sh
. "$(dirname "${BASH_SOURCE[0]}")/common.sh"
set -o pipefail
use_program
need redis-server redis-server
need python3 python3
/usr/bin/python3 -c 'import redis' 2>/dev/null || fail "there is no module redis for /usr/bin/python3 here; Debian's package python3-redis has it"
compiled client client.c
cd "$room" || exit 1
subs="$(scaled 10000)" events="$(scaled 200000)"
schema market >schema.txt
script market "$subs" 0 >subs.txt
script market 0 "$events" | grep '^PUB' >events.txt
/usr/bin/python3 "$top/bench/cluster.py" "$program" "$room" | while IFS='|' read -r what figure; do row "$what" "$figure"; done
