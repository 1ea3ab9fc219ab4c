#!/usr/bin/env python3
"""Starts `mirror` beside busy loops, again and again, each time with a feed that is there before it begins, over a pipe that stays open
then, and asks until the whole feed shows. Its words are the program and, where given, `--starts N`. Ends with 1 at the first start
whose feed takes longer than a second to show."""
import argparse
import os
import subprocess
import sys
import tempfile
import time

sys.dont_write_bytecode = True
from network import Server

LOOPS = 4
SHOWS_WITHIN = 1  # seconds, from when it listens
FEED = b"AT 0 SUB 1 0 a all\nAT 1 SUB 1 1 b all\nTAILED 2 2\n"
WHOLE = "HIT 2 2 a b"


class Mirror(Server):
    """A mirror whose feed was written before it was started."""

    command = "mirror"

    def __init__(self, program, schema):
        self.input, self.pipe = os.pipe()
        os.write(self.pipe, FEED)
        try:
            super().__init__(program, schema, 1, 1)
        finally:
            os.close(self.input)

    def end(self):
        os.close(self.pipe)
        return super().end()


def start(program, schema):
    """Starts it once, and gives what was wrong, if anything, and the seconds until the feed showed."""
    mirror = Mirror(program, schema)
    began = time.monotonic()
    client = mirror.client()
    while True:
        reply, took = client.ask("PUB -"), time.monotonic() - began
        if took > SHOWS_WITHIN:
            mirror.kill()
            return f"{reply} after {took:.2f} s", took
        if reply == WHOLE:
            break
        time.sleep(0.002)
    client.finish()
    ended = mirror.end()
    return None if ended == (0, b"MIRRORED 1 2\n", b"") else f"its end: {ended}", took


def main():
    words = argparse.ArgumentParser(description=__doc__)
    words.add_argument("program")
    words.add_argument("--starts", type=int, default=20)
    words = words.parse_args()
    longest = 0
    loops = [subprocess.Popen([sys.executable, "-c", "while True: pass"]) for _ in range(LOOPS)]
    try:
        with tempfile.TemporaryDirectory() as room:
            schema = os.path.join(room, "schema.txt")
            with open(schema, "w", encoding="ascii") as file:
                file.write("int price 0 1000\n")
            for number in range(words.starts):
                fault, took = start(words.program, schema)
                if fault:
                    sys.exit(f"FAILED: mirror: start {number + 1} of {words.starts} with its feed there: {fault}")
                longest = max(longest, took)
    finally:
        for loop in loops:
            loop.kill()
            loop.wait()
    print(f"mirror: {words.starts} starts beside {LOOPS} busy loops: the feed that was there showed within {longest * 1000:.0f} ms")
    print(f"{words.starts} passed, 0 failed")


if __name__ == "__main__":
    main()
