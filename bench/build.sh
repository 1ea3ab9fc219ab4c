#!/usr/bin/env bash
# Prints how long the first build takes, from nothing and in a copy, the processor time of it, the disk that it takes,
# and the size of the program. It proves every crate that the program stands on.
# shellcheck source=common.sh
. "$(dirname "${BASH_SOURCE[0]}")/common.sh"
tar -C "$top" --exclude=out --exclude=.git -cf - . | tar -C "$room" -xf -
TIMEFORMAT='%0R %0U %0S'
{ time "$room/justmeadow" --build >"$room/program" 2>"$room/err.txt"; } 2>"$room/took"
[ -s "$room/program" ] || { cat "$room/err.txt" >&2; exit 1; }
awk -v processors="$(nproc)" '{
    printf "the first build, on %d processors | %.0f min\n", processors, $1 / 60
    printf "its processor time | %.0f min\n", ($2 + $3) / 60
}' "$room/took"
du -sh "$room/out" | awk '{ print "what it keeps on disk | " $1 "B" }'
stat -c '%s' "$(cat "$room/program")" | awk '{ printf "the program that it builds | %.0f kB\n", $1 / 1000 }'
