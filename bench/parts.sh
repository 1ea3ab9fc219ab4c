#!/usr/bin/env bash
# Prints where the time of `run` goes, of 10,000 subscriptions and 5,000 events of the generated kind and of 200,000 events like a
# market's: shares of the samples that perf takes, by the functions that were run. It needs perf.
# shellcheck source=common.sh
. "$(dirname "${BASH_SOURCE[0]}")/common.sh"
command -v perf >/dev/null || fail "there is no perf here; Debian's package linux-perf has it"
use_program

# parts KIND TEXT EVENTS
parts() {
    awk -v what=schema -f "$top/bench/$1.awk" >"$room/schema.txt"
    awk -v what=script -v subs=10000 -v events="$3" -f "$top/bench/$1.awk" >"$room/script.txt"
    perf record -q -e cpu-clock -F 2000 -o "$room/perf" "$program" run "$room/schema.txt" <"$room/script.txt" >/dev/null 2>&1
    perf report -i "$room/perf" --stdio --no-children -F overhead,dso,sym 2>/dev/null | awk -v text="$2" -v events="$3" '
        /^ +[0-9.]+%/ {
            share = $1 + 0
            if (/be_match::|be_shape::sights/) part = "search"
            else if (/slice::sort|Found::order/) part = "order"
            else if (/Vec::truncate|Found::clear|Found::cut/) part = "free"
            else if (/be_protocol::texts|be_session::reads|be_session::serve::tell|memmove|memcpy|write|fdget/) part = "reply"
            else if (/be_base::|be_event::|be_io::|be_protocol::requests|be_session::serve|name_lists|be_model::events|memchr|read/) part = "line"
            else part = "rest"
            sum[part] += share
        }
        END {
            printf "%d events %s over 10,000 subscriptions | search and a reference to each found row %.0f%%, order of the found rows %.0f%%, letting them go %.0f%%, reply %.0f%%, reading a line and its event %.0f%%, the subscriptions and the rest %.0f%%\n",
                events, text, sum["search"], sum["order"], sum["free"], sum["reply"], sum["line"], sum["rest"]
        }'
}

parts generated "of the generated kind" 5000
parts market "like a market's" 200000
