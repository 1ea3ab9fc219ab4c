#!/usr/bin/env bash
# Runs a mirror and the get.py that feeds it, side by side. The words before `--` are get.py's, those behind it the mirror's command:
#
#     examples/cluster/mirror.sh feed --redis redis://HOST:6379 -- ./justmeadow mirror examples/follower/schema.txt 7100 8 1000000
#
# With FEEDER=tell.py it runs tell.py in place of get.py, for a mirror without a broker; the words before `--` are tell.py's then:
#
#     FEEDER=tell.py examples/cluster/mirror.sh 7000 -- ./justmeadow mirror examples/follower/schema.txt 7100 8 1000000
#
# When one of them ends, it stops the other and ends too: with the feeder's status where that ended first, and not with 0, else with
# the mirror's. SIGINT, SIGTERM and SIGHUP stop both. The feeder prints a line each second (`--beat 1`), so that a mirror whose
# connections were all served ends. Needs bash 5.1.
set -u
here="$(dirname "$(readlink -f "${BASH_SOURCE[0]}")")"
words=()
while [ $# -gt 0 ] && [ "$1" != -- ]; do
    words+=("$1")
    shift
done
feeder="${FEEDER:-get.py}"
case "$feeder" in
get.py) first=KEY ;;
tell.py) first=PORT ;;
*)
    echo "mirror.sh: FEEDER is get.py or tell.py" >&2
    exit 2
    ;;
esac
if [ ${#words[@]} -eq 0 ] || [ $# -lt 2 ]; then
    echo "mirror.sh: $first [WORD OF $feeder]... -- PROGRAM mirror SCHEMA PORT SEATS LINKS" >&2
    exit 2
fi
shift

# stop SIGNAL: stops both, and then this script as the signal would
# shellcheck disable=SC2317,SC2046 # the traps call it; jobs prints process ids
stop() {
    trap - INT TERM HUP
    kill $(jobs -p) 2>/dev/null
    wait
    kill -s "$1" $$
}
trap 'stop INT' INT
trap 'stop TERM' TERM
trap 'stop HUP' HUP

# A pipe, which this script opens at both ends, and each of the two at its own. It isn't written as FEEDER | mirror since the ids of
# both are needed.
exec {pipe}<> <(:)
"$here/$feeder" --beat 1 "${words[@]}" </dev/null >"/dev/fd/$pipe" {pipe}>&- &
getter=$!
"$@" <"/dev/fd/$pipe" {pipe}>&- &
mirror=$!
exec {pipe}>&-

wait -n -p first "$getter" "$mirror"
status=$?
if [ "$first" = "$getter" ]; then
    kill "$mirror" 2>/dev/null
    wait "$mirror"
    of_mirror=$?
    [ "$status" -ne 0 ] || status=$of_mirror
else
    kill "$getter" 2>/dev/null
    wait "$getter"
fi
exit "$status"
