#!/usr/bin/env bash
# Prints how long a round of a fetch and a put of one mailbox takes on one thread, of 4,000,000, and the memory of a
# program with 64 empty mailboxes and their passes. It builds, and so proves, a program of its own.
# shellcheck source=common.sh
. "$(dirname "${BASH_SOURCE[0]}")/common.sh"
own_crate mailbench be_base be_model be_mail
build_own mailbench 1
took="$(least 5 /dev/null "$own" 1)"
[ "$(cat "$room/out.txt")" = 4000000 ] || { echo "not every round took a letter and put it back" >&2; exit 1; }
awk -v took="$took" 'BEGIN { printf "a fetch and a put of a mailbox | %.0f ns\n", 1e9 * took / 4000000 }'
[ "$("$own" 64)" = true ] || { echo "no mailboxes were made" >&2; exit 1; }
peak /dev/null "$own" 64 | awk '{ printf "memory of a program with 64 empty mailboxes | %.1f MiB\n", $1 / 1024 }'
