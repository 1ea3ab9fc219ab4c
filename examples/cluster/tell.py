#!/usr/bin/env python3
"""Tells a leader's list of changes, from its first one on and for as long as it runs: asks `serve`, or a mirror, at PORT for
`TAIL place 1000 10000` again and again, which waits for a change, and prints each reply that has new changes, whole and as it came.
Its output is a feed.

    examples/cluster/tell.py 7000
    examples/cluster/tell.py 7000 --beat 1 | ./justmeadow mirror examples/follower/schema.txt 7100 8 1000000

With `--beat SECONDS` it prints a line `TAILED n 0`, which says nothing, where nothing came for so long: a mirror whose connections
were all served ends with the next line. Where the connection breaks it connects again, after growing pauses, compares the list with
what it printed, and goes on behind that. Then too it prints such lines, but not while it waits for an answer. Where the list is shorter, as of a mirror that was started
anew, it says so and waits. It keeps 8 bytes for each change that it printed.

Ends with 1 where it has no answer within PATIENCE seconds at the start, for which it holds one connection open, or where its output
takes no more; and with 3 where a change is another one than it printed: a server that was started anew has another list."""
import argparse
import array
import os
import sys
import time

sys.dont_write_bytecode = True
from output import name, other_list, pause, port, say, seconds, show, writing  # noqa: E402

sys.path.insert(0, os.path.join(os.path.dirname(os.path.abspath(__file__)), "..", "client"))
from justmeadow import Connection, Ended, turns  # noqa: E402

STEP = 1000  # changes that are asked for at once
WAIT = 10.0  # seconds that the leader may wait for a change
SOON, LATER = 0.01, 0.25  # seconds until it asks again where nothing is new and nobody waited, as a mirror, from the first time on
FIRST_PAUSE = 0.05  # seconds between two tries to connect
LONGEST_PAUSE = 1.0  # where the connection was refused
LONGEST_OF_OPEN = 10.0  # where it was open, and so took one of the leader's LINKS


class Teller:
    def __init__(self, words):
        self.words = words
        self.told = array.array("q")  # the hash of each change that was printed
        self.has_answered = self.is_short = False
        self.last = time.monotonic()  # when it last printed

    def run(self):
        """Connects again and again."""
        until, wait, before = time.monotonic() + self.words.patience, FIRST_PAUSE, None
        while True:
            began, session = time.monotonic(), None
            within = self.words.patience if self.has_answered else until - began
            try:
                session = Connection(self.words.port, self.words.host, within=max(within, FIRST_PAUSE))
                asked(session, 0, 0, within)  # its answer says that there is a seat
                self.has_answered, before = True, None
                session.within = max(self.words.patience, FIRST_PAUSE)
                self.go_on(session)
            except (OSError, Ended) as error:
                fault = self.fault(error)
            if session:
                session.abandon()
            now = time.monotonic()
            if now - began > LONGEST_OF_OPEN and before is None:
                wait = FIRST_PAUSE
            if not self.has_answered and now + wait >= until:
                sys.exit(f"{name()}: no leader at port {self.words.port}: {fault}")
            if fault != before:
                say(f"no leader at port {self.words.port}, trying again: {fault}")
            before = fault
            self.rest(wait)
            wait = min(2 * wait, LONGEST_OF_OPEN if session else LONGEST_PAUSE)

    def fault(self, error):
        if isinstance(error, TimeoutError) or isinstance(error.__cause__, TimeoutError):
            return f"no answer in {self.words.patience:g} seconds"
        return "the connection was closed" if isinstance(error, Ended) else str(error)

    def go_on(self, session):
        """Compares the list with what was printed, and prints what is new, until the connection breaks."""
        place, wait = 0, SOON
        while True:
            known, began = len(self.told), time.monotonic()
            most = self.longest() if place >= known or self.is_short else 0
            lines, length = asked(session, place, min(STEP, known - place) or STEP, session.within, most)
            if place < known:
                self.compare(place, lines, length)
                new = []
            else:
                new = lines
            if new or self.is_beat():
                self.show([*new, b"TAILED %d %d" % (length, len(new))])
            self.told.extend(map(hash, new))
            place += len(lines)
            if lines or time.monotonic() - began >= max(most / 1000, SOON):
                wait = SOON
            else:
                pause(wait)
                wait = min(2 * wait, LATER)

    def longest(self):
        """How many milliseconds the leader may wait: less than it may be silent, and no longer than until the next beat."""
        until_beat = self.words.beat - (time.monotonic() - self.last) if self.words.beat else WAIT
        return round(1000 * max(0, min(WAIT, self.words.patience / 2, until_beat)))

    def is_beat(self):
        return self.words.beat and time.monotonic() - self.last >= self.words.beat

    def show(self, lines):
        show(lines)
        self.last = time.monotonic()

    def rest(self, wait):
        """A pause between two connections."""
        until = time.monotonic() + wait
        while (left := until - time.monotonic()) > 0:
            pause(min(left, self.words.beat or left))
            if self.has_answered and self.is_beat():
                self.show([b"TAILED %d 0" % len(self.told)])

    def compare(self, place, lines, length):
        for at, line in enumerate(lines, place):
            if hash(line) != self.told[at]:
                other_list(f"the leader has another list: its change at place {at} isn't the one that was printed")
        if not lines and not self.is_short:
            say(f"the list has {length} changes, and {len(self.told)} were printed: waiting")
        self.is_short = not lines or (self.is_short and place + len(lines) < len(self.told))


def asked(session, place, most, within, wait=0):
    """The lines of these changes, and how many the leader has, which may wait so many milliseconds for one. It has to answer within
    so many seconds."""
    for _ in turns(float("inf")):
        session.tell(f"TAIL {place} {most} {wait}")
        if not pause(max(within, FIRST_PAUSE), session.socket):
            raise TimeoutError
        *lines, last = session.reply().split("\n")
        if last.startswith("TAILED "):
            return [line.encode() for line in lines], int(last.split(" ")[1])
        if last not in ("NOMEM", "SHUT"):
            sys.exit(f"{name()}: no reply to TAIL: {last[:200]!r}")


def main():
    words = argparse.ArgumentParser(description=__doc__, formatter_class=argparse.RawDescriptionHelpFormatter)
    words.add_argument("port", type=port)
    words.add_argument("--host", default="127.0.0.1")
    words.add_argument("--patience", type=seconds, default=30.0, metavar="SECONDS", help="how long the leader may be away at the start, and at most take for a reply")
    words.add_argument("--beat", type=seconds, metavar="SECONDS", help="print a line that says nothing where nothing came for so long")
    words = words.parse_args()
    with writing():
        Teller(words).run()


if __name__ == "__main__":
    main()
