#!/usr/bin/python3
"""Puts a feed, which it reads from standard input, into a stream of Redis: the line `AT place change` is the entry place+1 with
the line in its field `line`.

    examples/cluster/tell.py 7000 | examples/cluster/put.py feed

A change that the stream has already is compared and passed over, so a second teller, a restart and a repeat change nothing, and
the stream never has a gap. Where Redis goes away it tries again, after growing pauses. Ends with 1 where there is no Redis at the
start, where a line isn't one of a feed, and where changes before one are missing: begin again with the first change then. Ends with
3 where the stream has another change at a place, or an entry that isn't of a feed. Needs Debian's python3-redis."""
import os
import re
import sys

sys.dont_write_bytecode = True
from output import name, other_list  # noqa: E402
from streams import Stream, arguments  # noqa: E402

FEED_LINE = re.compile(rb"AT [0-9]{1,15} .*|TAILED [0-9]+ [0-9]+")
READ = 65536

# Within Redis, so that no other writer comes between: each line is put last, or compared with the one that stands there.
PUT = """
local top = redis.call('XREVRANGE', KEYS[1], '+', '-', 'COUNT', 1)[1]
local length = 0
if top then
    length = tonumber(string.match(top[2][2], '^AT (%d+) ')) or -1
    length = length + 1
    if top[1] ~= string.format('%d-0', length) then return {'foreign', top[1], 0} end
end
for _, line in ipairs(ARGV) do
    local place = tonumber(string.match(line, '^AT (%d+) '))
    local id = string.format('%d-0', place + 1)
    if place > length then return {'gap', place, length} end
    if place == length then
        redis.call('XADD', KEYS[1], id, 'line', line)
        length = length + 1
    else
        local there = redis.call('XRANGE', KEYS[1], id, id)[1]
        if not there then return {'cut', place, length} end
        if there[2][2] ~= line then return {'other', place, length} end
    end
end
return {'put', length, length}
"""


def whole_lines():
    """The whole lines of standard input, as many at once as have come. What stands behind the last LF is no line."""
    rest = b""
    while piece := read():
        *lines, rest = (rest + piece).split(b"\n")
        yield lines


def read():
    try:
        return os.read(0, READ)
    except OSError as error:
        return sys.exit(f"{name()}: standard input can't be read: {error.strerror}")


def main():
    words = arguments(__doc__).parse_args()
    if sys.stdin is None:
        sys.exit(f"{name()}: standard input is closed")
    stream = Stream(words)
    put = stream.redis.register_script(PUT)
    for lines in whole_lines():
        for line in lines:
            if not FEED_LINE.fullmatch(line):
                sys.exit(f"{name()}: no line of a feed: {line[:200]!r}")
        changes = [line for line in lines if line.startswith(b"AT ")]
        if not changes:
            continue
        kind, place, length = stream.call(lambda lines=changes: put(keys=[stream.key], args=lines))
        if kind == b"other":
            other_list(f"the stream {stream.key} has another change at place {place}")
        if kind == b"foreign":
            other_list(f"the stream {stream.key} has an entry that isn't of a feed: {place.decode()}")
        if kind == b"gap":
            sys.exit(f"{name()}: the next change of the stream {stream.key} is the one at place {length}, and this is the one at place {place}")
        if kind == b"cut":
            sys.exit(f"{name()}: the stream {stream.key} no longer has the change at place {place}")


if __name__ == "__main__":
    main()
