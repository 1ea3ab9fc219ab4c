#!/usr/bin/env bash
# Tests the program as a user runs it, and what is written about it: each script of tests/ in turn. The last line is what all of
# them came to. A script that ends badly without saying what failed counts as one failure.
set -u
top="$(cd "$(dirname "${BASH_SOURCE[0]}")/.." && pwd)"
JUSTMEADOW_PROGRAM="${JUSTMEADOW_PROGRAM-$("$top/justmeadow" --where)}" || exit 1
export JUSTMEADOW_PROGRAM
said="$(mktemp)"
trap 'rm -f "$said"' EXIT
passed=0 failed=0
for script in script.sh completion.sh cli.sh drill.sh serve.sh waits.sh mirror.sh clients.sh cluster.sh build.sh docs.sh uncited.py; do
    case "$script" in *.py) with=python3 ;; *) with=bash ;; esac
    "$with" "$top/tests/$script" 2>&1 | tee "$said" | sed "s/^/${script%.*}: /"
    status=${PIPESTATUS[0]}
    # its last line of this form counts
    read -r good bad < <(awk 'match($0, /^[0-9]+ passed, [0-9]+ failed/) { good = $1; bad = $3 } END { print good + 0, bad + 0 }' "$said")
    [ "$status" -eq 0 ] || [ "$bad" -gt 0 ] || bad=1
    passed=$((passed + good)) failed=$((failed + bad))
done
echo "$passed passed, $failed failed"
[ $failed -eq 0 ]
