#!/usr/bin/env bash
# Runs lines that wait, FETCH and TAIL with a time, against `serve`, `run`, `drill`, `heat`, `follow` and `mirror`, by tests/waits.py.
# The last line is `N passed, N failed`; the status is 1 where a case failed.
# shellcheck source=program.sh
. "$(dirname "${BASH_SOURCE[0]}")/program.sh"
began=$SECONDS

if ! command -v python3 >/dev/null; then
    echo 'FAILED: lines that wait: they need python3, and there is none here'
    echo "0 passed, 1 failed"
    exit 1
fi
part python3 "$top/tests/waits.py" "$program"
echo "waits took $((SECONDS - began)) s"
echo "$passed passed, $failed failed"
[ $failed -eq 0 ]
