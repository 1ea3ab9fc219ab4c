#!/usr/bin/env python3
"""A leader and a follower as real processes: starts `serve`, subscribes over a connection, takes the list of changes by TAIL over
another one, in steps of 1,000, into a file, and has `follow` answer the same events from that file. Its words: the program, and
how many subscriptions are made (2,500 where it isn't given). Ends with 1 where an answer differs from the leader's.

    examples/follower/follower.py ./justmeadow"""
import os
import socket
import subprocess
import sys
import tempfile
import time

HERE = os.path.dirname(os.path.abspath(__file__))
sys.dont_write_bytecode = True
sys.path.insert(0, os.path.join(HERE, "..", "client"))
from justmeadow import Connection  # noqa: E402

SCHEMA = os.path.join(HERE, "schema.txt")
STEP = 1000


def connected(port):
    """A connection, once the server listens."""
    for _ in range(6000):
        try:
            return Connection(port)
        except ConnectionRefusedError:
            time.sleep(0.01)
    sys.exit("the leader doesn't listen")


def free_port():
    with socket.socket() as probe:
        probe.bind(("127.0.0.1", 0))
        return probe.getsockname()[1]


def subscribed(leader, count):
    """Many conditions, of which every seventh is removed again."""
    for number in range(count):
        leader.subscribe(f"s{number}", f"price between {number % 900} and {number % 900 + 50} and side != {['buy', 'sell', 'hold'][number % 3]}")
        if number % 7 == 0:
            leader.unsubscribe(f"s{number}")


def captured(session, feed):
    """Takes the whole list into the file, reply by reply as they came. Returns its length."""
    place = 0
    with open(feed, "w", encoding="ascii") as file:
        while True:
            reply = session.ask(f"TAIL {place} {STEP}")
            file.write(reply + "\n")
            words = reply.rsplit("\n", 1)[-1].split(" ")
            if words[0] != "TAILED":
                sys.exit(f"no reply to TAIL: {reply[-200:]}")
            if words[2] == "0":
                return place
            place += int(words[2])


def main(program, count):
    port = free_port()
    leader = subprocess.Popen([program, "serve", SCHEMA, str(port), "2", "2"], stdin=subprocess.DEVNULL, stdout=subprocess.PIPE)
    events = [f"price={price} side={side}" for price in range(0, 1000, 97) for side in ("buy", "sell", "hold")] + ["-", "price={1,500} side={buy,sell}"]
    with tempfile.TemporaryDirectory() as room, connected(port) as writer, connected(port) as reader:
        feed = os.path.join(room, "feed")
        subscribed(writer, count)
        length = captured(reader, feed)
        wanted = [reader.ask(f"PUB {event}") for event in events]
        asked = "".join(f"PUB {event}\n" for event in events) + "QUIT\n"
        given = subprocess.run([program, "follow", SCHEMA, feed], input=asked.encode(), capture_output=True, check=False)
    leader.communicate()
    answers = given.stdout.decode().split("\n")
    if given.returncode or answers != [*wanted, f"BYE {length}", ""]:
        sys.exit(f"FAILED: the follower ended with {given.returncode}: {given.stderr.decode()}{answers[:2]}, and not {wanted[:2]}")
    print(f"the follower answered {len(events)} events from {length} changes as its leader did")


if __name__ == "__main__":
    main(sys.argv[1], int(sys.argv[2]) if len(sys.argv) > 2 else 2500)
