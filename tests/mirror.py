#!/usr/bin/env python3
"""Drives `mirror` over TCP: feeds it in pieces of many sizes, also with faults, and judges what each client saw over the list that
the feed means. Its one word is the program. Ends with 1 at the first difference."""
import os
import random
import subprocess
import sys
import tempfile
import threading
import time

sys.dont_write_bytecode = True
import legal
import mixed
import model
from changes import History, Illegal, number, require
from network import Cut, Server

PROGRAM = sys.argv[1]
WAIT = 60  # seconds until a change has to be there
passed = 0


class Mirror(Server):
    command, input = "mirror", subprocess.PIPE

    def feed(self, text):
        self.process.stdin.write(text.encode("ascii"))
        self.process.stdin.flush()

    def end_feed(self):
        self.process.stdin.close()
        self.process.stdin = None


class Reads(legal.Walk):
    """A session of a mirror: it reads alone, and no change of the list is its own."""

    def quit(self, words, *_):
        require(len(words) == 2 and words[0] == "BYE", "no reply to QUIT")
        self.shown(words)
        self.ended = legal.LEFT

    def leave(self):
        pass


class CutReads(Reads, Cut):
    pass


def reading(line):
    command, said = legal.reading(line)
    if line is None or command in ("PUB", "COST", "DUMP", "TAIL", "QUIT") or (said is None and first_word(line) in ("PUB", "COST", "DUMP", "TAIL", "QUIT")):
        return command, said
    return "BAD", None


def first_word(line):
    return next(iter(line.decode("latin-1").split()), "")


def same(what, given, wanted):
    global passed
    if given != wanted:
        sys.exit(f"FAILED: mirror: {what}: {given!r}, and not {wanted!r}")
    passed += 1


def is_legal(what, changes, clients, kind=Reads):
    """Judges what the clients got over this list. Gives how often each kind of reply came."""
    global passed
    kinds, readings = {}, {}
    try:
        history = History(changes, [], max([1, *(int(change.split(" ")[1]) for change in changes)]))
        for client in clients:
            replies = client.came.decode("ascii", "backslashreplace").split("\n")
            rest = replies.pop()
            require(kind is CutReads or not rest, "a reply without LF:", rest)
            walk = kind(0, history, replies, None, readings)
            walk.read = lambda text, _, walk=walk: legal.Walk.read(walk, text, reading)
            walk.judge(legal.lines_of(client.sent))
            for word, count in walk.kinds.items():
                kinds[word] = kinds.get(word, 0) + count
    except Illegal as why:
        sys.exit(f"FAILED: mirror: {what}: NOT LEGAL: {why}")
    passed += 1
    return kinds


def in_threads(calls):
    """Runs these at once. The first that fails ends the program."""
    faults = []

    def run(call):
        try:
            call()
        except BaseException as fault:  # a thread's fault would be lost
            faults.append(fault)

    threads = [threading.Thread(target=run, args=(call,)) for call in calls]
    for thread in threads:
        thread.start()
    for thread in threads:
        thread.join()
    if faults:
        sys.exit(f"FAILED: mirror: a client: {faults[0]!r}")


def length_of(client):
    return number(client.ask("TAIL 0 0").split(" ")[1])


def wait_for(client, length):
    """Asks until the mirror has so many changes."""
    until = time.monotonic() + WAIT
    while length_of(client) < length:
        if time.monotonic() > until:
            sys.exit(f"FAILED: mirror: it hasn't {length} changes within {WAIT} seconds")
        time.sleep(0.002)


SMALL = "AT 0 SUB 1 0 cheap price <= 250\nAT 1 SUB 2 0 b side = buy\nTAILED 3 2\nAT 2 SUB 1 1 c all\n"


def one_client(schema):
    mirror = Mirror(PROGRAM, schema, 1, 1)
    client = mirror.client()
    same("an empty list", client.ask("PUB price=1"), "HIT 0 0")
    mirror.feed(SMALL)
    wait_for(client, 3)
    same("an event", client.ask("PUB price=10 side=buy"), "HIT 3 3 cheap b c")
    same("another one", client.ask("PUB side=sell"), "HIT 3 1 c")
    same("what it costs", client.ask("COST side=sell"), "COST 3 1 3")
    for line in ("SUB x all", "UNSUB c", "LIST", "SEND -", "FETCH 1", "", "PUB", "QUIT now", "SUB 7 7 7", "UNSUB " + "n" * 65):
        same(f"no line of a mirror: {line}", client.ask(line), "BAD")
    for line, reply in (("PUB cost=1", "ATTR cost"), ("PUB price=1001", "DOM price"), ("COST price=1 price=2", "TWICE price"), ("PUB " + "x" * 65536, "LONG")):
        same(f"a refusal: {line[:20]}", client.ask(line), reply)
    at = len(client.came)
    same("a dump", client.ask("DUMP"), "# DUMP 3 3")
    same("its rows", client.came[at:].decode("ascii"), "ROW cheap price <= 250\nROW b side = buy\nROW c all\n# DUMP 3 3\n")
    at = len(client.came)
    same("a tail", client.ask("TAIL 1 5"), "TAILED 3 2")
    same("its changes", client.came[at:].decode("ascii"), "AT 1 SUB 2 0 b side = buy\nAT 2 SUB 1 1 c all\nTAILED 3 2\n")
    same("a leave", client.ask("QUIT"), "BYE 3")
    client.finish()
    same("one client", mirror.end(), (0, b"MIRRORED 1 3\n", b""))


def by_whole_lines(schema):
    """A change counts once its LF has come."""
    mirror = Mirror(PROGRAM, schema, 1, 1)
    client = mirror.client()
    mirror.feed("AT 0 SUB 1 0 a all\nAT 1 SUB 1 1 b all")
    wait_for(client, 1)
    time.sleep(0.05)
    same("a line without its LF", client.ask("PUB -"), "HIT 1 1 a")
    mirror.feed("\n")
    wait_for(client, 2)
    same("with its LF", client.ask("PUB -"), "HIT 2 2 a b")
    mirror.feed("AT 2 UNSUB 1 2 a")
    mirror.end_feed()
    client.finish()
    same("a feed that breaks off within a line", mirror.end(), (0, b"MIRRORED 1 2\n", b""))


def faults(schema):
    """A fault stops the feeding at its line, and nothing else."""
    good = ["AT 0 SUB 1 0 a all", "AT 1 SUB 1 1 b price < 5"]
    for line, kind in (("AT 3 BYE 1 2", "Gap"), ("AT 0 SUB 1 0 a price < 7", "Fork"), ("AT 2 UNSUB 1 2 c", "Unfit"), ("AT 2 SUB 1 3 c all", "Unfit"), ("AT x", "Form"), ("", "Form"), ("A" * 262145, "Form")):
        mirror = Mirror(PROGRAM, schema, 2, 2)
        clients = [mirror.client(), mirror.client()]
        mirror.feed("".join(f"{it}\n" for it in [*good, line, "AT 2 SUB 1 2 late all"]))
        for client in clients:
            wait_for(client, 2)
            same(f"an event beside the fault {kind}", client.ask("PUB price=3"), "HIT 2 2 a b")
        time.sleep(0.02)
        for client in clients:
            same(f"an event behind the fault {kind}", client.ask("PUB -"), "HIT 2 1 a")
            client.finish()
        same(f"the fault {kind}", mirror.end(), (3, b"MIRRORED 2 2\n", f"feed line 3: {kind}\n".encode()))


def its_end(schema):
    """The input's end stops the feeding and nothing else; and once all links are served a line that says nothing ends it."""
    mirror = Mirror(PROGRAM, schema, 1, 2)
    mirror.feed("AT 0 SUB 1 0 a all\n")
    mirror.end_feed()
    for _ in range(2):
        client = mirror.client()
        wait_for(client, 1)
        client.finish()
    same("an input that has ended", mirror.end(), (0, b"MIRRORED 2 1\n", b""))
    mirror = Mirror(PROGRAM, schema, 1, 1)
    mirror.feed("AT 0 SUB 1 0 a all\n")
    client = mirror.client()
    wait_for(client, 1)
    same("a leave", client.ask("QUIT"), "BYE 1")
    client.finish()
    until = time.monotonic() + WAIT
    while mirror.process.poll() is None and time.monotonic() < until:
        try:
            mirror.feed("TAILED 1 0\n")
        except BrokenPipeError:
            break
        time.sleep(0.02)
    same("a feed that goes on", mirror.process.wait(WAIT), 0)
    same("its output", mirror.process.stdout.read(), b"MIRRORED 1 1\n")


def history_of(count, seed):
    """A well formed list of changes."""
    lines, changes, live, serials = mixed.Mixed(1, seed), [], {}, [0] * 6
    pick = random.Random(seed)
    while len(changes) < count:
        session = pick.randint(1, 5)
        mine = [name for name, owner in live.items() if owner == session]
        if mine and pick.random() < 0.4:
            name = pick.choice(mine)
            del live[name]
            changes.append(f"UNSUB {session} {serials[session]} {name}")
        else:
            try:
                condition = model.condition_text(model.judged(model.Reader(model.tokens(lines.condition())).condition(), False))
            except model.Refusal:
                continue
            name = f"n{len(changes)}"
            live[name] = session
            changes.append(f"SUB {session} {serials[session]} {name} {condition}")
        serials[session] += 1
    return changes


def captured(changes, seed):
    """Replies to TAIL that cover the list: they overlap, and come twice."""
    pick, text, covered = random.Random(seed), [], 0
    while covered < len(changes):
        place, most = pick.randint(max(0, covered - 40), covered), pick.choice([0, 1, 3, 50, 400])
        told = pick.randint(max(covered, place), len(changes))
        some = changes[place : min(told, place + most)]
        text += [f"AT {place + at} {change}\n" for at, change in enumerate(some)] + [f"TAILED {told} {len(some)}\n"]
        covered = max(covered, place + len(some))
    return "".join(text)


def lines_for(seed, count):
    """Lines of a mirror's client, most of them reads."""
    lines = mixed.Mixed(seed, seed)
    pick = lines.random
    few = []
    for _ in range(count):
        kind = pick.random()
        if kind < 0.6:
            line = f"PUB {lines.event()}"
        elif kind < 0.75:
            line = f"COST {lines.event()}"
        elif kind < 0.9:
            line = f"TAIL {pick.randint(0, 3000)} {pick.choice(['0', '1', '20'])}"
        elif kind < 0.91:
            line = "DUMP"
        else:
            line = lines.picked() or " "
        few.append(lines.spoiled(line, 0.02))
    return [line for line in few if "\n" not in line]


def under_load(schema, seats, links, count, piece, seed):
    """Clients that ask while the feed comes in pieces of this size, or of any size."""
    changes = history_of(count, seed)
    text = captured(changes, seed)
    mirror = Mirror(PROGRAM, schema, seats, links + 1)
    pick, clients, turns = random.Random(seed), [None] * links, threading.Semaphore(2 * seats)
    last = mirror.client()

    def feed():
        at = 0
        while at < len(text):
            size = piece or pick.choice([1, 7, 100, 5000])
            mirror.feed(text[at : at + size])
            at += size
            if pick.random() < 0.2:
                time.sleep(0.001)

    def one(index):
        with turns:
            client = clients[index] = mirror.client()
            lines = lines_for(seed * 1000 + index, 60)
            # some ask line by line and see the list grow, some send all at once
            if index % 2:
                for line in lines:
                    client.send(line.encode("latin-1") + b"\n")
                    time.sleep(0.0005)
            else:
                client.send("".join(f"{line}\n" for line in lines).encode("latin-1"))
            client.finish()

    in_threads([feed, *(lambda index=index: one(index) for index in range(links))])
    wait_for(last, count)
    last.finish()
    same("the end of a mirror under load", mirror.end(), (0, f"MIRRORED {links + 1} {count}\n".encode(), b""))
    kinds = is_legal(f"{links} clients at {seats} seats, pieces of {piece}", changes, [*clients, last])
    print(f"mirror: {links} clients at {seats} seats, pieces of {piece or 'any size'}: legal over {count} changes:", ", ".join(f"{kinds[kind]} {kind}" for kind in sorted(kinds)))


def of_a_mirror(schema):
    """A mirror feeds another one, by TAIL."""
    changes = history_of(500, 77)
    first, second = Mirror(PROGRAM, schema, 1, 1), Mirror(PROGRAM, schema, 1, 1)
    teller, client = first.client(), second.client()
    place = 0
    for at in range(0, 500, 50):
        first.feed("".join(f"AT {at + number} {change}\n" for number, change in enumerate(changes[at : at + 50])))
        while place < at + 50:
            begin = len(teller.came)
            teller.ask(f"TAIL {place} 20")
            reply = teller.came[begin:].decode("ascii")
            second.feed(reply)
            place += reply.count("AT ")
    wait_for(client, 500)
    begin = len(client.came)
    client.ask("TAIL 0 1000")
    same("a mirror's mirror", client.came[begin:].decode("ascii"), "".join(f"AT {at} {change}\n" for at, change in enumerate(changes)) + "TAILED 500 500\n")
    for it, link in ((first, teller), (second, client)):
        link.finish()
        same("its end", it.end(), (0, b"MIRRORED 1 500\n", b""))


def broken_off(schema):
    """Connections that break off end their sessions and no other; what came before is legal."""
    changes = history_of(300, 5)
    mirror = Mirror(PROGRAM, schema, 2, 4)
    mirror.feed("".join(f"AT {at} {change}\n" for at, change in enumerate(changes)))
    broken = [mirror.client(), mirror.client()]
    for client in broken:
        wait_for(client, 300)
        client.send(b"DUMP\n" * 200)
        client.line()
        client.reset()
    whole = [mirror.client(), mirror.client()]
    for client in whole:
        client.send(b"PUB -\nDUMP\nQUIT\n")
        client.finish()
    code, out, err = mirror.end()
    same("links that broke off", (code in (4, 5), out), (True, b"MIRRORED 4 300\n"))
    same("their fault", err, {4: b"read fault\n", 5: b"write fault\n"}[code])
    is_legal("links beside those that broke off", changes, whole)
    is_legal("links that broke off", changes, broken, CutReads)


def main():
    with tempfile.TemporaryDirectory() as room:
        mixed.main(room, 1, 1, 9)
        schema = os.path.join(room, "schema.txt")
        one_client(schema)
        by_whole_lines(schema)
        faults(schema)
        its_end(schema)
        of_a_mirror(schema)
        broken_off(schema)
        under_load(schema, 2, 6, 600, 1, 1)
        under_load(schema, 4, 24, 3000, 0, 2)
        under_load(schema, 16, 64, 20000, 65536, 3)
    print(f"{passed} passed, 0 failed")


if __name__ == "__main__":
    main()
