#!/usr/bin/env bash
# Prints the elapsed time and the most memory of `run` on 1 GiB of one line, which must stay below 20 MB.
# shellcheck source=common.sh
. "$(dirname "${BASH_SOURCE[0]}")/common.sh"
set -o pipefail
use_program
cd "$room" || exit 1
printf 'int price 0 1000\n' >schema.txt
head -c 1073741824 /dev/zero | tr '\0' 'x' | /usr/bin/time -o took -f '%e %M' "$program" run schema.txt >out || fail "the session failed"
read -r seconds peak < <(tail -n 1 took)
[ "$(cat out)" = LONG ] || fail "it was answered otherwise than by LONG"
[ "$peak" -lt 20000 ] || fail "it took $peak KiB of memory"
row "1 GiB of one line, answered LONG" "$seconds s, $((peak / 1024)) MiB of memory at most"
