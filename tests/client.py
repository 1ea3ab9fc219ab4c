#!/usr/bin/env python3
"""Drives the program through the client of examples/client over pipes: line by line, in bulk, and to its ends.
Its one word is the program. Ends with 1 at the first difference."""
import os
import sys
import tempfile

TOP = os.path.dirname(os.path.dirname(os.path.abspath(__file__)))
sys.dont_write_bytecode = True
sys.path.insert(0, os.path.join(TOP, "examples", "client"))
from justmeadow import Behind, Ended, Refused, Session  # noqa: E402

PROGRAM = sys.argv[1]


def same(what, given, wanted):
    if given != wanted:
        sys.exit(f"FAILED: client: {what}: {given!r}, and not {wanted!r}")


def refused(call, *words):
    try:
        return call(*words)
    except Refused as reply:
        return reply.words


def interactive(schema):
    """Each reply is there before the next line is sent."""
    session = Session([PROGRAM, "run", schema])
    same("the first change", session.subscribe("cheap", "price <= 250"), 1)
    same("the second change", session.subscribe("buys", "side = buy"), 2)
    same("a name that is live", refused(session.subscribe, "cheap", "all"), ["DUP", "2", "0"])
    same("an unknown attribute", refused(session.publish, "cost=1"), ["ATTR", "cost"])
    same("hits", session.publish("price=240 side=buy"), ["cheap", "buys"])
    same("no hit", session.publish("-"), [])
    same("hits of enough changes", session.publish("side=buy", at_least=2), ["buys"])
    try:
        sys.exit(f"FAILED: client: hits of too few changes: {session.publish('-', at_least=3, within=0.2)!r}")
    except Behind:
        pass
    same("a removal", session.unsubscribe("cheap"), 3)
    same("names", session.names(), ["buys"])
    try:
        sys.exit(f"FAILED: client: a LF within a line: {session.ask('LIST' + chr(10) + 'LIST')!r}")
    except ValueError:
        pass
    next(session.ask_all(["PUB -", "LIST"]))
    same("after a reply that was left unread", session.publish("side=buy"), ["buys"])
    same("letters", session.send("side=buy"), (1, 0))
    same("what they say", session.fetch(10), [("buys", "side=buy")])
    same("no letter", session.fetch(10), [])
    same("no letter, where it might wait and doesn't", session.fetch(10, 60000), [])
    same("a wait that is too long", refused(session.fetch, 10, 60001), ["BAD"])
    same("the changes", session.tail(1, 2), ["SUB 1 1 buys side = buy", "UNSUB 1 2 cheap"])
    same("no change, where it might wait and doesn't", session.tail(3, 2, 60000), [])
    same("too many changes", refused(session.tail, "0", "1000001"), ["BAD"])
    load = schema + ".load"
    with open(load, "w", encoding="ascii") as file:
        file.write(session.dump())
    same("the code", session.close(), 0)
    with Session([PROGRAM, "run", schema, "--load", load]) as session:
        same("a table from one run to the next", session.publish("side=buy"), ["buys"])
        same("a row of the table", refused(session.unsubscribe, "buys"), ["OTHER", "1", "0"])
        replies = list(session.ask_all(["DUMP", "FETCH 1", "LIST"]))
        same("replies of several lines", replies, ["ROW buys side = buy\n# DUMP 1 1", "END 0", "LIST 1 0"])


def bulk(schema):
    """More than the pipes hold in both directions: 4 MB of lines, 40 MB of replies, one reply of 900,000 bytes."""
    names = [f"subscription-number-{number:026d}" for number in range(20000)]
    with Session([PROGRAM, "run", schema]) as session:
        wanted = [f"OK {number}" for number in range(1, len(names) + 1)]
        same("bulk of SUB", list(session.ask_all(f"SUB {name} all" for name in names)), wanted)
        hit = " ".join(["HIT", "20000", "20000", *names])
        same("a long reply", session.ask("PUB price=1"), hit)
        lines = ["PUB price=1", "PUB price=2 side=sell", "x"] * 20 + ["LIST"]
        wanted = [hit, hit, "BAD"] * 20 + [hit.replace("HIT", "LIST", 1)]
        same("bulk of PUB", list(session.ask_all(lines)), wanted)
        wanted = [f"OK {20000 + number}" for number in range(1, len(names) + 1)]
        same("bulk of UNSUB", list(session.ask_all(f"UNSUB {name}" for name in names)), wanted)
        same("after the bulk", session.publish("price=1"), [])


def ends(schema):
    """After a QUIT nothing is answered; a program that can't begin gives no reply, and its code says why."""
    session = Session([PROGRAM, "run", schema])
    same("the end of a session", list(session.ask_all(["SUB a all", "QUIT"])), ["OK 1", "BYE 2"])
    try:
        same("a line after QUIT", session.ask("LIST"), None)
    except Ended:
        pass
    same("the code after QUIT", session.close(), 0)
    silent = ["sh", "-c", 'exec "$0" "$@" 2>/dev/null', PROGRAM]
    session = Session([*silent, "run", schema + ".missing"])
    try:
        same("a missing schema", session.ask("LIST"), None)
    except Ended:
        pass
    same("the code of a missing schema", session.close(), 4)


with tempfile.TemporaryDirectory() as room:
    SCHEMA = os.path.join(room, "schema.txt")
    with open(SCHEMA, "w", encoding="ascii") as file:
        file.write("int price 0 1000\nsym side buy sell\n")
    interactive(SCHEMA)
    bulk(SCHEMA)
    ends(SCHEMA)
print("the client of examples/client: line by line, in bulk, to its ends")
