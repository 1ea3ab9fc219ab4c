#!/usr/bin/env bash
# Prints what memory a session takes that is empty, a live subscription of the generated kind (bench/generated.awk), all told, in
# `run` and in `serve`, the least of three runs; and a change that leaves nothing live. Each is the most that the process had at once.
#   bench/memory.sh                   prints the figures
#   bench/memory.sh --table SUBS..    prints a line `SUBS RUN SERVE` for each of these numbers of subscriptions, in MiB, with a - for
#                                     a server that isn't filled within a minute
# shellcheck source=common.sh
. "$(dirname "${BASH_SOURCE[0]}")/common.sh"
set -o pipefail
use_program
need python3 python3
compiled client client.c
cd "$room" || exit 1
schema generated >schema.txt
: >none.txt

# in_run SUBS; in_serve SUBS: the KiB with so many subscriptions, made by SUBs, in `serve` while they are live
in_run() { script generated "$1" 0 >script.txt && peak script.txt "$program" run schema.txt; }
in_serve() {
    script generated "$1" 0 >script.txt
    # a client has one line at least
    [ "$1" != 0 ] || echo 'PUB -' >script.txt
    serving 1
    client bulk "$port" script.txt "$server"
    echo "${told#* }"
}

if [ "${1-}" = --table ]; then
    for subs in "${@:2}"; do
        run="$(in_run "$subs")" || exit 1
        if serve="$(in_serve "$subs")"; then serve="$(figure %.1f "$serve / 1024")"; else serve=-; fi
        figure "$subs %.1f $serve\n" "$run / 1024"
    done
    exit
fi

# least_kib COMMAND..: the least of three runs: large pages round what a process has up, by up to 2 MiB each
least_kib() { for _ in 1 2 3; do "$@" || exit 1; done | sort -n | sed -n 1p; }

most="$(scaled 100000)" changes="$(scaled 1000000)"
run="$(least_kib in_run "$most")" && run_none="$(least_kib in_run 0)" || exit 1
serve="$(least_kib in_serve "$most")" && serve_none="$(least_kib in_serve 0)" || exit 1
row 'memory of an empty session, in `run` and in `serve`' "$(figure '%.1f and %.1f MiB' "$run_none / 1024, $serve_none / 1024")"
row 'memory of a live subscription of 2.5 predicates, all told, in `run` and in `serve`' \
    "$(figure '%.0f and %.0f bytes' "1024 * ($run - $run_none) / $most, 1024 * ($serve - $serve_none) / $most")"
awk -v most="$changes" 'BEGIN { for (i = 0; i < most / 2; i++) print "SUB s a0 < 5\nUNSUB s" }' >script.txt
kept="$(peak script.txt "$program" run schema.txt)"
row "memory of a change that leaves nothing live, of $(grouped "$changes")" "$(figure '%.0f bytes' "1024 * ($kept - $run_none) / $changes")"
