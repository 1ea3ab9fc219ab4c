# shellcheck shell=bash disable=SC2034
# What the scripts that run the program share; they source it. They run $JUSTMEADOW_PROGRAM, or what `./justmeadow` runs. Each
# works in a room of its own, which goes at its end.
set -u
top="$(cd "$(dirname "${BASH_SOURCE[0]}")/.." && pwd)"
room="$(mktemp -d)"
trap 'chmod -R u+rwx "$room" 2>/dev/null; rm -rf "$room"' EXIT
passed=0

built="${JUSTMEADOW_PROGRAM-$("$top/justmeadow" --where)}"
[ -x "$built" ] || { echo "FAILED: there is no program to test"; exit 1; }
program="$room/program"
cp "$built" "$program"
# another user may be the one that runs it
chmod 711 "$room"
chmod 755 "$program"
nobody=(setpriv --reuid=65534 --regid=65534 --clear-groups)

# same NAME CODE OUT ERR: what the last call left is as wanted, where OUT and ERR are texts for printf
same() {
    printf "$3" >"$room/want-out"
    printf "$4" >"$room/want-err"
    if [ "$code" -ne "$2" ]; then
        echo "FAILED: $1: ended with $code, and not $2"
        cat "$room/err"
        exit 1
    fi
    if ! cmp -s "$room/want-out" "$room/out"; then
        echo "FAILED: $1: standard output differs"
        diff "$room/want-out" "$room/out" | head -n 20
        exit 1
    fi
    if ! cmp -s "$room/want-err" "$room/err"; then
        echo "FAILED: $1: standard error differs"
        diff "$room/want-err" "$room/err" | head -n 20
        exit 1
    fi
    passed=$((passed + 1))
}

# call WORD..: runs the program on the file `in`
call() {
    "$program" "$@" <"$room/in" >"$room/out" 2>"$room/err"
    code=$?
}

# part COMMAND..: runs a part of the test that counts for itself, whose last line is `N passed, N failed`
failed=0
part() {
    local good=0 bad=0 status
    "$@" 2>&1 | tee "$room/part"
    status=${PIPESTATUS[0]}
    read -r good bad < <(awk '/^[0-9]+ passed, [0-9]+ failed$/ { good = $1; bad = $3 } END { print good + 0, bad + 0 }' "$room/part")
    [ "$status" -eq 0 ] || [ "$bad" -gt 0 ] || bad=1
    passed=$((passed + good)) failed=$((failed + bad))
}
