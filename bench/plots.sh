#!/usr/bin/env bash
# Measures, and draws three pictures into bench/plots, or into the folder that is named:
#   events.svg      events a second by subscriptions, of Justmeadow and of others on the same work (bench/peers.sh)
#   roundtrips.svg  round trips a second by connections, with 10,000 subscriptions (bench/serve.sh)
#   memory.svg      memory by subscriptions, of `run` and of `serve` (bench/memory.sh)
#   bench/plots.sh [FOLDER]
# shellcheck source=common.sh
. "$(dirname "${BASH_SOURCE[0]}")/common.sh"
use_program
need gnuplot gnuplot-nox
folder="$(realpath "${1:-$top/bench/plots}")"
mkdir -p "$folder"
export BENCH_PROGRAM="$program"
cd "$room" || exit 1

timeout 240 bash "$top/bench/peers.sh" --table 100 300 1000 3000 10000 30000 100000 >events || fail "events.svg isn't drawn"
timeout 240 bash "$top/bench/serve.sh" --table 1 2 4 8 16 >trips || fail "roundtrips.svg isn't drawn"
timeout 240 bash "$top/bench/memory.sh" --table "$(scaled 1000)" "$(scaled 25000)" "$(scaled 50000)" "$(scaled 75000)" "$(scaled 100000)" >memory || fail "memory.svg isn't drawn"

{
    echo "made = '$(stated)'"
    cat "$top/bench/plots.gnuplot"
} >plots.gnuplot
# each peer that was measured has a file of its own
awk '{ print $1, $3 >("events-" $2) }' events
gnuplot -e "folder = '$folder'" plots.gnuplot || fail "gnuplot has failed"
