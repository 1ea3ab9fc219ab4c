#!/usr/bin/env bash
# Runs the example of a cluster whole, by tests/cluster.py: a leader, what tells its list, a Redis of its own, and a follower over
# what comes out of it, with each part killed in turn. It is passed over, with a notice, where Debian's redis-server or
# python3-redis isn't here. The last line is `N passed, N failed`; the status is 1 where a case failed.
# shellcheck source=program.sh
. "$(dirname "${BASH_SOURCE[0]}")/program.sh"
began=$SECONDS

if ! command -v redis-server >/dev/null || ! /usr/bin/python3 -c 'import redis' 2>/dev/null; then
    echo "skipped: the example of a cluster, which needs redis-server and python3-redis"
    echo "0 passed, 0 failed"
    exit
fi
part /usr/bin/python3 "$top/tests/cluster.py" "$program" "$room"
echo "cluster took $((SECONDS - began)) s"
echo "$passed passed, $failed failed"
[ "$failed" -eq 0 ]
