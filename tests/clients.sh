#!/usr/bin/env bash
# Drives `serve` through each client of examples/, by tests/clients.py. A language that isn't here is passed over, with a notice.
# The last line is `N passed, N failed`; the status is 1 where a case failed.
# shellcheck source=program.sh
. "$(dirname "${BASH_SOURCE[0]}")/program.sh"
began=$SECONDS
failed=0
started=()

# has COMMAND: whether it is here
has() {
    command -v "$1" >/dev/null && return
    echo "skipped: what needs $1, which isn't here"
    return 1
}

# start NAME COMMAND..: drives this client's demo, beside the others
start() {
    python3 "$top/tests/clients.py" "$program" "${@:2}" >"$room/$1.out" 2>&1 &
    started+=("$1")
}

# built: whether the client for Go is, without a module and without the network
built() {
    (cd "$top/examples/client-go" && GOCACHE="$room/go-cache" GOPATH="$room/go" GOPROXY=off GOFLAGS='' GOTOOLCHAIN=local \
        go build -o "$room/client-go" client.go demo.go) >"$room/go.out" 2>&1
}

if ! has python3; then
    echo "0 passed, 0 failed"
    exit
fi
start python python3 "$top/examples/client/justmeadow.py"
if has node; then start node node "$top/examples/client-node/client.js"; fi
if has go; then
    if built; then
        start go "$room/client-go"
    else
        echo 'FAILED: the client for Go: it is not built'
        cat "$room/go.out"
        failed=1
    fi
fi
wait

for name in "${started[@]}"; do
    read -r good _ bad _ < <(tail -n 1 "$room/$name.out" | grep -x '[0-9]* passed, [0-9]* failed' || echo '0 passed, 1 failed')
    [ "$bad" -eq 0 ] || cat "$room/$name.out"
    echo "the client for $name: $good passed, $bad failed"
    passed=$((passed + good))
    failed=$((failed + bad))
done
echo "clients took $((SECONDS - began)) s"
echo "$passed passed, $failed failed"
[ "$failed" -eq 0 ]
