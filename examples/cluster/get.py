#!/usr/bin/python3
"""Prints the feed that put.py put into a stream of Redis, from a place on (0 where none is given) and for as long as it runs, or
with `--once` as far as the stream goes now.

    examples/cluster/get.py feed --once >feed.txt
    examples/cluster/get.py feed --beat 1 | ./justmeadow mirror examples/follower/schema.txt 7100 8 1000000

With `--beat SECONDS` it prints a line `TAILED place 0`, which says nothing, where nothing came for so long: a mirror whose
connections were all served ends with the next line. Where Redis goes away it tries again, after growing pauses, and goes on behind
the last change that it printed. Where the stream isn't there it says so once, and waits, or ends with `--once`. Ends with 1 where there is no Redis at the start, or its output takes no more, and with 3 where the
stream lacks a change, or no longer has the last one that was printed: it is another list then, and nothing of it is printed. Needs
Debian's python3-redis."""
import sys
import time

sys.dont_write_bytecode = True
from output import other_list, pause, place, say, seconds, show, writing  # noqa: E402
from streams import Stream, arguments  # noqa: E402

AT_ONCE = 1000  # entries
WAIT = 1000  # milliseconds that a read waits for an entry


class Getter:
    def __init__(self, words):
        self.stream, self.words = Stream(words), words
        self.place, self.line = words.place, None  # of the next change, and the last one that was printed
        self.wait = min(WAIT, max(1, int(1000 * words.beat))) if words.beat else WAIT

    def read(self):
        """The entries from this place on, as many at once as there are. There may be none."""
        asked = {self.stream.key: f"{self.place}-0"}
        reply = self.stream.call(lambda: self.stream.redis.xread(asked, count=AT_ONCE, block=None if self.words.once else self.wait))
        return reply[0][1] if reply else []

    def say_empty(self):
        if not self.stream.call(lambda: self.stream.redis.xrange(self.stream.key, count=1)):
            say(f"there is no stream {self.stream.key}, or nothing in it" + ("" if self.words.once else ": waiting"))

    def compare(self):
        """Sees that the stream still has the last change that was printed. What was read before is of the same list then."""
        if self.line is None:
            return
        at = f"{self.place}-0"
        there = self.stream.call(lambda: self.stream.redis.xrange(self.stream.key, at, at))
        if not there or there[0][1].get(b"line") != self.line:
            now = "has another" if there else "no longer has the"
            other_list(f"the stream {self.stream.key} {now} change at place {self.place - 1}, which was printed")

    def take(self, found):
        lines = []
        for number, fields in found:
            line = fields.get(b"line", b"")
            if number != b"%d-0" % (self.place + 1) or not line.startswith(b"AT %d " % self.place):
                show(lines)
                other_list(f"the stream {self.stream.key} doesn't have the change at place {self.place}")
            lines.append(line)
            self.place, self.line = self.place + 1, line
        show(lines)

    def go_on(self):
        last, beat, is_first = time.monotonic(), self.words.beat, True
        while True:
            found = self.read()
            self.compare()
            if is_first and not found:
                self.say_empty()
            is_first = False
            if found:
                self.take(found)
                last = time.monotonic()
            elif self.words.once:
                return
            elif beat and time.monotonic() - last >= beat:
                show([b"TAILED %d 0" % self.place])
                last = time.monotonic()
            else:
                pause(0)


def main():
    words = arguments(__doc__)
    words.add_argument("--place", type=place, default=0, help="of the first change")
    words.add_argument("--once", action="store_true", help="end where the stream ends now")
    words.add_argument("--beat", type=seconds, metavar="SECONDS", help="print a line that says nothing where nothing came for so long")
    words = words.parse_args()
    with writing():
        Getter(words).go_on()


if __name__ == "__main__":
    main()
