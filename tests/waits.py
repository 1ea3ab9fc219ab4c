#!/usr/bin/env python3
"""Drives `serve` with clients that wait in FETCH and TAIL: until a letter or a change comes, the time is over, more is sent, or the
client is gone. Then `run`, `drill`, `heat` and a mirror on such lines. Its one word is the program. All cases are run, a line
each. The last line is `N passed, N failed`, and the status is 1 where a case failed."""
import contextlib
import os
import select
import socket
import subprocess
import sys
import tempfile
import threading
import time

sys.dont_write_bytecode = True
import model
from legal import schema_of
from network import Illegal, Link, Server, judge

PROGRAM = sys.argv[1]
LONG = 20_000  # milliseconds that nobody waits out
PATIENCE = 25  # seconds until a reply counts as lost
WOKEN, ENDED, GONE = 0.05, 0.15, 0.5  # seconds: until a letter or a change, an end by more input, and a free name are seen
TRIES = 5  # of a short time the least of these counts: other work may hold up each
TURNS, WAITERS = 2_000, 63
SCHEMA = "int price 0 1000000\nsym side buy sell\n"
counts = {True: 0, False: 0}


class Failed(Exception):
    pass


def case(what, given, wanted=True):
    counts[given == wanted] += 1
    print(f"ok: {what}" if given == wanted else f"FAILED: waits: {what}: {str(given)[:300]}, and not {str(wanted)[:300]}", flush=True)


class Waiter(Link):
    def __init__(self, server):
        super().__init__(server, PATIENCE)

    def waits(self, line):
        """Sends a line, and sees that it isn't answered at once."""
        self.send(line.encode() + b"\n")
        if not self.is_quiet(0.1):
            raise Failed(f"{line} didn't wait: {self.reply()}")

    def rest(self):
        """All that still comes, up to the end."""
        while data := self.socket.recv(1 << 16):
            self.came += data
        rest, self.at = self.came[self.at :].decode("ascii"), len(self.came)
        return rest

    def length(self):
        return int(self.asked("TAIL 0 0")[-1].split(" ")[1])


class Mirror(Server):
    command = "mirror"


@contextlib.contextmanager
def serving(room, seats, kind=Server):
    server = kind(PROGRAM, room.schema, seats, 10_000)
    try:
        yield server
    finally:
        server.kill()


def took(call):
    """How many seconds the call takes, and what it returns."""
    began = time.monotonic()
    given = call()
    return time.monotonic() - began, given


def is_at_once(seconds):
    return seconds < LONG / 4_000


def subscribed_soon(link, name):
    """How many seconds it takes until the name, which was another session's, is free for this one."""
    began = time.monotonic()
    while (reply := link.asked(f"SUB {name} all")[-1]).startswith("DUP "):
        if time.monotonic() > began + 10:
            break
        time.sleep(0.01)
    if not reply.startswith("OK "):
        raise Failed(f"a SUB of the name of a session that is gone: {reply}")
    return time.monotonic() - began


def by_a_letter(room):
    with serving(room, 2) as server:
        waiting, sender = Waiter(server), Waiter(server)
        waiting.asked("SUB a all")
        times = []
        for number in range(TRIES):
            waiting.waits(f"FETCH 5 {LONG}")
            began = time.monotonic()
            sender.send(b"SEND price=%d\n" % number)
            reply = waiting.reply()
            times.append(time.monotonic() - began)
            case(f"a wait for letter {number + 1} gives it", reply, [f"NOTE 1 a price={number}", "END 1"])
            case(f"and letter {number + 1} was put", sender.reply(), ["SENT 1 1 0"])
        case(f"a letter ends a wait within {WOKEN} s", min(times) < WOKEN)
        sender.asked("SEND price=7")
        sender.asked("SEND price=8")
        seconds, reply = took(lambda: waiting.asked(f"FETCH 5 {LONG}"))
        case("letters that are there aren't waited for", (is_at_once(seconds), reply), (True, ["NOTE 1 a price=7", "NOTE 1 a price=8", "END 2"]))


def by_time(room):
    with serving(room, 1) as server:
        link = Waiter(server)
        for line, wanted in (("FETCH 5 300", "END 0"), ("TAIL 0 5 300", "TAILED 0 0"), ("TAIL 0 0 300", "TAILED 0 0")):
            seconds, reply = took(lambda line=line: link.asked(line))
            case(f"{line} is answered when the time is over", (0.25 <= seconds <= 1, reply), (True, [wanted]))
        case("the next line is answered as ever", link.asked("PUB -"), ["HIT 0 0"])


def by_more_input(room):
    with serving(room, 1) as server:
        link, times = Waiter(server), []
        for number in range(TRIES):
            link.waits(f"FETCH 5 {LONG}" if number % 2 else f"TAIL {number} 5 {LONG}")
            began = time.monotonic()
            link.send(b"SUB b%d all\n" % number)
            first, second = link.reply(), link.reply()
            times.append(time.monotonic() - began)
            wanted = "END 0" if number % 2 else f"TAILED {number} 0"
            case(f"more input ends a wait, and is answered: {wanted}", (first, second), ([wanted], [f"OK {number + 1}"]))
        case(f"more input ends a wait within {ENDED} s", min(times) < ENDED)
        link.waits(f"FETCH 5 {LONG}")
        link.send(b"LI")
        seconds, reply = took(link.reply)
        case("a part of a line ends a wait", (is_at_once(seconds), reply), (True, ["END 0"]))
        link.send(b"ST\n")
        case("and the whole line is answered", link.reply()[0].split(" ")[:3], ["LIST", "5", "5"])


def by_the_end(room):
    """A client that sends no more, closes, or breaks off while it waits: its reply, its names and its seat."""
    with serving(room, 2) as server:
        watcher = Waiter(server)
        for line, wanted in ((f"FETCH 5 {LONG}", "END 0\n"), (f"TAIL 1000 5 {LONG}", "TAILED ")):
            half = Waiter(server)
            half.asked("SUB half all")
            half.waits(line)
            half.socket.shutdown(socket.SHUT_WR)
            case(f"the end of the input ends {line}, within {GONE} s", subscribed_soon(watcher, "half") < GONE)
            reply = half.rest()
            case("it is answered, and there is no BYE", (reply.startswith(wanted), reply.count("\n")), (True, 1))
            watcher.asked("UNSUB half")
            for leave in ("close", "reset"):
                gone = Waiter(server)
                gone.asked("SUB gone all")
                gone.waits(line)
                getattr(gone, leave)()
                case(f"a peer that is gone by {leave} leaves {line}: its name is free within {GONE} s", subscribed_soon(watcher, "gone") < GONE)
                watcher.asked("UNSUB gone")
                seconds, reply = took(lambda: Waiter(server).asked("QUIT"))
                case("and so is its seat", (seconds < GONE, reply[0].split(" ")[0]), (True, "BYE"))


def for_changes(room):
    with serving(room, 2) as server:
        waiting, writer = Waiter(server), Waiter(server)
        times = []
        for place in range(TRIES):
            waiting.waits(f"TAIL {place} {place % 2} {LONG}")
            began = time.monotonic()
            writer.send(b"SUB a%d all\n" % place)
            reply = waiting.reply()
            times.append(time.monotonic() - began)
            case(f"a wait for change {place + 1} tells it", reply[-1], f"TAILED {place + 1} {place % 2}")
            case("and gives it, where it was asked for", named(reply), [(str(place), f"a{place}")] if place % 2 else [])
            writer.reply()
        case(f"a change ends a wait within {WOKEN} s", min(times) < WOKEN)
        seconds, reply = took(lambda: waiting.asked(f"TAIL 1 2 {LONG}"))
        case("changes that are there aren't waited for", (is_at_once(seconds), len(reply), reply[-1]), (True, 3, "TAILED 5 2"))
        waiting.waits(f"TAIL 6 5 {LONG}")
        writer.asked("UNSUB a0")
        case("a place ahead waits on after one change", waiting.is_quiet(0.3))
        writer.asked("UNSUB a1")
        reply = waiting.reply()
        case("and is told the change at it", (named(reply), reply[-1]), ([("6", "a1")], "TAILED 7 1"))
        began = time.monotonic()
        waiting.waits("TAIL 1000 5 500")
        writer.asked("UNSUB a2")
        reply = waiting.reply()
        case("a place far ahead is answered when the time is over", (0.45 <= time.monotonic() - began <= 2, reply), (True, ["TAILED 8 0"]))


def named(reply):
    """The places and names of the changes that a TAIL gave."""
    return [(line.split(" ")[1], line.split(" ")[5]) for line in reply[:-1]]


def without_a_wait(room):
    """Lines that never wait, and lines without a reading."""
    bad = ["FETCH 5 60001", "FETCH 5 x", "FETCH 5 1 2", "FETCH 5 -1", "FETCH 5 1.5", "FETCH 5 " + "9" * 30, "FETCH x 5", "FETCH 1000001 5", "FETCH 5,5", "FETCH"]
    bad += ["TAIL 0 5 60001", "TAIL 0 5 x", "TAIL 0 5 1 2", "TAIL 0 1000001 5", "TAIL 0 5 " + "9" * 30, "TAIL 5", "LIST 5", "DUMP 5", "QUIT 5"]
    good = [(f"FETCH 0 {LONG}", "END 0"), ("FETCH 5 0", "END 0"), ("FETCH 5 000", "END 0"), ("FETCH 5", "END 0"), ("TAIL 0 5 0", "TAILED 0 0"), ("TAIL 9 5", "TAILED 0 0")]
    with serving(room, 1) as server:
        link = Waiter(server)
        for line, wanted in [*good, *((line, "BAD") for line in bad)]:
            seconds, reply = took(lambda line=line: link.asked(line))
            case(f"{line} is answered at once", (is_at_once(seconds), reply), (True, [wanted]))


def lines_beside(room):
    """Lines before one that waits, and lines behind it."""
    with serving(room, 2) as server:
        link, sender = Waiter(server), Waiter(server)
        link.asked("SUB a all")
        link.send(b"LIST\nPUB -\nFETCH 5 %d\n" % LONG)
        seconds, replies = took(lambda: [link.reply(), link.reply()])
        case("replies to earlier lines come before the wait", (is_at_once(seconds), replies), (True, [["LIST 1 1 a"], ["HIT 1 1 a"]]))
        case("and the wait goes on", link.is_quiet(0.3))
        sender.asked("SEND -")
        case("until the letter", link.reply(), ["NOTE 1 a -", "END 1"])
        for line, wanted in ((b"FETCH 5 2000", ["END 0"]), (b"TAIL 1 5 2000", ["TAILED 1 0"])):
            link.send(line + b"\nLIST\n")
            seconds, replies = took(lambda: [link.reply(), link.reply()])
            case(f"{line.decode()} with a line behind it in one packet doesn't wait", (seconds < 1, replies), (True, [wanted, ["LIST 1 1 a"]]))
        link.send(b"FETCH 5 2000\r\nTAIL 1 5 300\n")
        seconds, replies = took(lambda: [link.reply(), link.reply()])
        case("of two in one packet the last one waits", (0.25 <= seconds <= 1.5, replies), (True, [["END 0"], ["TAILED 1 0"]]))


def many_waiters(room):
    """All seats but one wait, for a letter and then for a change, and what each saw is judged over the list."""
    server = Server(PROGRAM, room.schema, WAITERS + 1, WAITERS + 1)
    try:
        sender, waiting = Waiter(server), [Waiter(server) for _ in range(WAITERS)]
        for number, link in enumerate(waiting):
            link.asked(f"SUB w{number} all")
        for link in waiting:
            link.send(b"FETCH 5 %d\n" % LONG)
        case(f"{WAITERS} sessions wait", all(link.is_quiet(0.01) for link in waiting))
        case("one SEND puts a letter for each", sender.asked("SEND price=5"), [f"SENT {WAITERS} {WAITERS} 0"])
        seconds, replies = took(lambda: [link.reply() for link in waiting])
        case("and each is given its own", (is_at_once(seconds), replies), (True, [[f"NOTE {WAITERS} w{number} price=5", "END 1"] for number in range(WAITERS)]))
        for link in waiting:
            link.send(b"TAIL %d 5 %d\n" % (WAITERS, LONG))
        case("they wait again", all(link.is_quiet(0.01) for link in waiting))
        case("one SUB is a change for all", sender.asked("SUB s all"), [f"OK {WAITERS + 1}"])
        seconds, replies = took(lambda: {reply[-1] for reply in [link.reply() for link in waiting]})
        case("and each is told it", (is_at_once(seconds), replies), (True, {f"TAILED {WAITERS + 1} 1"}))
        for link in (sender, *waiting):
            link.finish()
        code, out, err = server.end()
        case("the server ends as ever", (code, err), (0, b""))
        try:
            case("and all replies are true of its list", judge([], WAITERS + 1, out, [sender, *waiting])[0], WAITERS + 1)
        except Illegal as why:
            case("all replies are true of its list", str(why))
    finally:
        server.kill()


def by_turns(room):
    """Two consumers that send to each other and wait for each other: a wake that is lost would last a whole wait."""
    with serving(room, 2) as server:
        links = [Waiter(server), Waiter(server)]
        for link, side in zip(links, ("buy", "sell")):
            link.asked(f"SUB {side} side = {side}")
        faults = []

        def take_turns(link, mine, other, is_first):
            try:
                for turn in range(TURNS):
                    if turn or not is_first:
                        reply = link.asked(f"FETCH 1 {LONG}")
                        if reply != [f"NOTE 2 {mine} price={turn - is_first} side={mine}", "END 1"]:
                            raise Failed(f"turn {turn} of {mine}: {reply}")
                    reply = link.asked(f"SEND price={turn} side={other}")
                    if reply != ["SENT 2 1 0"]:
                        raise Failed(f"turn {turn} of {mine}: {reply}")
            except (Failed, OSError, EOFError) as fault:
                faults.append(repr(fault))

        sides = (links[0], "buy", "sell", True), (links[1], "sell", "buy", False)
        threads = [threading.Thread(target=take_turns, args=words) for words in sides]
        for thread in threads:
            thread.start()
        for thread in threads:
            thread.join()
        case(f"two consumers by turns, {TURNS} times", faults, [])


def beside_a_leave(room):
    with serving(room, 3) as server:
        waiting, leaver, sender = Waiter(server), Waiter(server), Waiter(server)
        waiting.asked("SUB a all")
        leaver.asked("SUB b all")
        waiting.waits(f"FETCH 5 {LONG}")
        leaver.close()
        while sender.length() < 3:
            time.sleep(0.01)
        case("another session's leave doesn't end a FETCH", waiting.is_quiet(0.3))
        case("which is a SEND away from its letter", sender.asked("SEND -"), ["SENT 3 1 0"])
        case("and has it", waiting.reply(), ["NOTE 3 a -", "END 1"])
        leaver = Waiter(server)
        leaver.asked("PUB -")
        waiting.waits(f"TAIL 3 5 {LONG}")
        leaver.close()
        reply = waiting.reply()
        case("another session's leave is a change that a TAIL waits for", (reply[0].split(" ")[:3], reply[1:]), (["AT", "3", "BYE"], ["TAILED 4 1"]))


def idle(room):
    """Sessions that wait take no processor time to speak of. The least of three spells counts, in hundredths of a second."""
    with serving(room, 60) as server:
        links = [Waiter(server) for _ in range(60)]
        for number, link in enumerate(links):
            link.waits(f"FETCH 5 {LONG}" if number % 2 else f"TAIL 0 5 {LONG}")
        spent = []
        for _ in range(3):
            before = server.ticks()
            time.sleep(1)
            spent.append(server.ticks() - before)
        case("60 sessions that wait take below a tenth of a processor", min(spent) < 10)
        case("and they all still wait", all(link.is_quiet(0.01) for link in links))


def other_commands(room):
    """`run` never waits, `drill` and `heat` wait for the other files, and a mirror answers at once."""
    lines = b"SUB a all\nFETCH 5 60000\nTAIL 1 5 60000\nTAIL 0 5 60001\nFETCH 5 60000\n"
    seconds, ran = took(lambda: subprocess.run([PROGRAM, "run", room.schema], input=lines, capture_output=True, check=False, timeout=70))
    case("run doesn't wait", (is_at_once(seconds), ran.returncode, ran.stdout), (True, 0, b"OK 1\nEND 0\nTAILED 1 0\nBAD\nEND 0\n"))
    with subprocess.Popen([PROGRAM, "run", room.schema], stdin=subprocess.PIPE, stdout=subprocess.PIPE, bufsize=0) as process:
        process.stdin.write(b"FETCH 5 5000\n")
        case("nor where its input goes on", (bool(select.select([process.stdout], [], [], 2)[0]), process.stdout.read(100)), (True, b"END 0\n"))
        process.stdin.close()
    room.write("f1", f"SUB a all\nFETCH 5 {LONG}\n")
    room.write("f2", "PUB -\n" * 200_000 + "SEND price=7\n")  # so that the other one waits by then
    for command in ("drill", "heat"):
        words = [PROGRAM, command, room.schema, "0", room.path("f1"), room.path("f2")]
        seconds, ran = took(lambda words=words: subprocess.run(words, capture_output=True, check=False, timeout=70))
        first = ran.stdout.partition(b"== 2\n")[0].split(b"\n")
        case(f"{command}: a file waits for another's letter", (seconds < LONG / 1000, first[2:3], first[3:]), (True, [b"NOTE 1 a price=7"], [b"END 1", b""]))
    with serving(room, 1, Mirror) as server:
        link = Waiter(server)
        for line, wanted in ((f"TAIL 0 5 {LONG}", "TAILED 0 0"), ("TAIL 0 5 0", "TAILED 0 0"), ("TAIL 0 5 60001", "BAD"), ("TAIL 0 5 1 2", "BAD"), (f"FETCH 5 {LONG}", "BAD")):
            seconds, reply = took(lambda line=line: link.asked(line))
            case(f"a mirror answers {line} at once", (is_at_once(seconds), reply), (True, [wanted]))
    room.write("feed", "TAILED 0 0\n")
    ran = subprocess.run([PROGRAM, "follow", room.schema, room.path("feed")], input=b"FETCH 5 300\nTAIL 0 5 300\nPUB -\n", capture_output=True, check=False, timeout=70)
    case("follow takes neither line", ran.stdout, b"BAD\nBAD\nHIT 0 0\n")


class Room:
    """A folder with the schema."""

    def __init__(self, folder):
        self.folder, self.schema = folder, os.path.join(folder, "schema.txt")
        self.write("schema.txt", SCHEMA)
        model.SCHEMA[:] = schema_of(SCHEMA)

    def path(self, name):
        return os.path.join(self.folder, name)

    def write(self, name, text):
        with open(self.path(name), "w", encoding="ascii") as file:
            file.write(text)


PARTS = [by_a_letter, by_time, by_more_input, by_the_end, for_changes, without_a_wait, lines_beside, many_waiters, by_turns, beside_a_leave, idle, other_commands]


def main():
    with tempfile.TemporaryDirectory() as folder:
        room = Room(folder)
        for part in PARTS:
            try:
                part(room)
            except (Failed, OSError, EOFError, IndexError, ValueError, subprocess.SubprocessError) as fault:
                case(part.__name__, repr(fault))
    print(f"{counts[True]} passed, {counts[False]} failed")
    sys.exit(counts[False] > 0)


if __name__ == "__main__":
    main()
