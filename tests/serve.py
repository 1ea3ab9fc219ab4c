#!/usr/bin/env python3
"""Drives `serve` over TCP with clients that behave and clients that don't, and judges what each saw over the list that the
server prints. Its one word is the program. Ends with 1 at the first difference."""
import contextlib
import os
import socket
import statistics
import sys
import tempfile
import threading
import time

sys.dont_write_bytecode = True
import mixed
import model
from network import Illegal, Server, judge

sys.path.insert(0, os.path.join(os.path.dirname(os.path.dirname(os.path.abspath(__file__))), "examples", "client"))
from justmeadow import Connection, Refused  # noqa: E402

PROGRAM = sys.argv[1]

# Four times as many SUBs: the processor time grows fourfold, or sixteenfold where a SUB costs what is there already.
FEW, MANY, FILL_BOUND = 20_000, 80_000, 9
# How much longer another's UNSUB may take beside a client that sends LFs alone, and how many make a median, each after a pause.
HOLD_BOUND, TRIPS, PAUSE = 4, 50, 0.002
passed = 0


def same(what, given, wanted):
    global passed
    if given != wanted:
        sys.exit(f"FAILED: serve: {what}: {given!r}, and not {wanted!r}")
    passed += 1


def is_legal(what, seats, output, whole, cut=(), opening=()):
    global passed
    try:
        served, count, kinds = judge(list(opening), seats, output, whole, cut)
    except Illegal as why:
        sys.exit(f"FAILED: serve: {what}: NOT LEGAL: {why}")
    passed += 1
    return served, count, kinds


def in_threads(calls):
    """Runs these at once. The first that fails ends the program."""
    faults = []

    def run(call):
        try:
            call()
        except BaseException as fault:  # a thread's fault would be lost
            faults.append(fault)

    threads = [threading.Thread(target=run, args=(call,)) for call in calls]
    for thread in threads:
        thread.start()
    for thread in threads:
        thread.join()
    if faults:
        sys.exit(f"FAILED: serve: a client: {faults[0]!r}")


def one_client(schema):
    server = Server(PROGRAM, schema, 1, 1)
    client = server.client()
    client.send(b"SUB a price >= 10\nPUB price=10\nPUB price=9\n")
    client.finish()
    same("what one client got", client.came, b"OK 1\nHIT 1 1 a\nHIT 1 0\n")
    same("one client", server.end(), (0, b"== LOG 2\nSUB 1 0 a price >= 10\nBYE 1 1\nSERVED 1 2\n", b""))


def connected(server):
    """The client of examples/client, once the server listens."""
    until = time.monotonic() + 60
    while True:
        try:
            return Connection(server.port)
        except ConnectionRefusedError:
            if time.monotonic() > until:
                raise
            time.sleep(0.01)


def each_reply_at_once(schema):
    """Each reply is there before the next line is sent, also where a part of that was. A second link waits for the one seat."""
    server = Server(PROGRAM, schema, 1, 2)
    first, second = server.client(), server.client()
    same("a change", first.ask("SUB a all"), "OK 1")
    same("an event", first.ask("PUB -"), "HIT 1 1 a")
    second.send(b"PUB -\n")
    first.send(b"PUB -\nLIST\nQUI")
    same("two lines before a part of one", (first.line(), first.line()), ("HIT 1 1 a", "LIST 1 1 a"))
    same("a leave", first.ask("T"), "BYE 2")
    same("the second link", second.line(), "HIT 2 0")
    second.finish()
    first.close()
    same("two links", server.end(), (0, b"== LOG 3\nSUB 1 0 a all\nBYE 1 1\nBYE 2 0\nSERVED 2 3\n", b""))


def an_empty_box(schema):
    """A client leaves its box full, and the next one on the seat gets its own letter, and none of those."""
    server = Server(PROGRAM, schema, 1, 2)
    first = server.client()
    first.send(b"SUB a all\n" + b"SEND -\n" * 1030)
    first.finish()
    same("a full box", first.came, b"OK 1\n" + b"SENT 1 1 0\n" * 1024 + b"SENT 1 0 1\n" * 6)
    second = server.client()
    same("an empty box: a change", second.ask("SUB b all"), "OK 3")
    same("an empty box: a letter", second.ask("SEND -"), "SENT 3 1 0")
    second.send(b"FETCH 5\n")
    second.finish()
    same("an empty box: what is fetched", second.came.split(b"\n")[2:], [b"NOTE 3 b -", b"END 1", b""])
    same("an empty box", server.end(), (0, b"== LOG 4\nSUB 1 0 a all\nBYE 1 1\nSUB 2 0 b all\nBYE 2 1\nSERVED 2 4\n", b""))


def the_client(schema):
    """Two sessions by the client of examples/client, which see each other's changes."""
    server = Server(PROGRAM, schema, 2, 2)
    with connected(server) as first, connected(server) as second:
        same("the client: a change", first.subscribe("cheap", "price <= 250"), 1)
        same("the client: a change of the other", second.subscribe("buys", "side = buy"), 2)
        same("the client: hits", sorted(first.publish("price=240 side=buy")), ["buys", "cheap"])
        try:
            sys.exit(f"FAILED: serve: the client: the other's name was removed: {second.unsubscribe('cheap')}")
        except Refused as refusal:
            same("the client: another's name", refusal.words, ["OTHER", "2", "0"])
        same("the client: a letter", first.send("side=buy"), (1, 0))
        same("the client: it is fetched", second.fetch(5), [("buys", "side=buy")])
    code, out, err = server.end()
    same("the client's server", (code, err, out.count(b"\n")), (0, b"", 6))


def many_clients(schema, load, opening, seats, links, lines):
    """Clients at once, each with lines of its own, over an opening table."""
    server = Server(PROGRAM, schema, seats, links, ["--load", load])
    clients = [None] * links
    turns = threading.Semaphore(2 * seats)

    def one(number):
        with turns:
            client = clients[number] = server.client()
            text = f"SUB client{number} all\n" + mixed.Mixed(number + 1, links).text(lines)
            client.send(text.encode("latin-1"))
            client.finish()

    in_threads([lambda number=number: one(number) for number in range(links)])
    code, out, err = server.end()
    same("the status of many clients", (code, err), (0, b""))
    served, count, kinds = is_legal(f"{links} clients at {seats} seats", seats, out, clients, opening=opening)
    same("links served", served, links)
    print(f"serve: {links} clients at {seats} seats: legal over {count} changes:", ", ".join(f"{kinds[kind]} {kind}" for kind in sorted(kinds)))


def half_a_line(schema):
    """A client sends half a line and no more, one sends half a line and goes, and others go on."""
    server = Server(PROGRAM, schema, 3, 3)
    half, gone, other = server.client(), server.client(), server.client()
    half.send(b"SUB half all\nPUB pri")
    half.finish()
    gone.send(b"SUB gone all\nPUB pri")
    gone.close()
    other.send(b"SUB other all\nPUB -\n")
    other.finish()
    code, out, _ = server.end()
    if code not in (0, 4, 5):
        sys.exit(f"FAILED: serve: half a line: ended with {code}")
    same("half a line", half.came.split(b"\n")[1:], [b"BAD", b""])
    served, count, _ = is_legal("half a line", 3, out, [half, other], [gone])
    same("half a line: links served", served, 3)
    same("half a line: changes", count, 6)


def never_reads(schema):
    """A client that never reads is waited for, and others go on beside it."""
    server = Server(PROGRAM, schema, 2, 3)
    silent = server.client()
    same("a client that will not read", silent.ask("SUB silent all"), "OK 1")
    silent.socket.setblocking(False)
    lines, flooded, refused = b"TAIL 0 1\n" * 1000, 0, 0
    while refused < 20:
        try:
            flooded += silent.socket.send(lines[flooded % len(lines) :])
            refused = 0
        except BlockingIOError:
            refused += 1
            time.sleep(0.02)
    silent.sent += (lines * (flooded // len(lines) + 1))[:flooded]
    others = [server.client(), server.client()]
    for number, other in enumerate(others):
        other.send(b"SUB other%d all\nPUB -\nLIST\n" % number)
        other.finish()
    silent.close()
    code, out, _ = server.end()
    if code not in (4, 5):
        sys.exit(f"FAILED: serve: a client that never reads: ended with {code}")
    served, count, _ = is_legal("a client that never reads", 2, out, others, [silent])
    same("a client that never reads: links served and changes", (served, count), (3, 6))


def long_line(schema, size):
    """A line over the limit, of any length, is one LONG."""
    server = Server(PROGRAM, schema, 2, 2)
    client, other = server.client(), server.client()
    client.send(b"SUB a all\n")
    piece = b"x" * (1 << 20)
    for _ in range(size >> 20):
        client.socket.sendall(piece)
    client.send(b"\nPUB -\n")
    other.send(b"LIST\n")
    client.finish()
    other.finish()
    code, out, err = server.end()
    same("a long line", (code, err), (0, b""))
    same("a long line's replies", client.came.split(b"\n")[1], b"LONG")
    same("what follows a long line", client.came.split(b"\n")[2][:4], b"HIT ")


def resets(schema):
    """Connections that break off end their sessions, which leave, and no other."""
    server = Server(PROGRAM, schema, 4, 8)
    broken = [server.client() for _ in range(4)]
    for number, client in enumerate(broken):
        client.ask(f"SUB broken{number} all")
    for client in broken:
        client.reset()
    whole = [server.client() for _ in range(4)]
    for number, client in enumerate(whole):
        client.send(b"SUB whole%d all\nPUB -\nLIST\n" % number)
        client.finish()
    code, out, err = server.end()
    same("resets", (code, err), (4, b"read fault\n"))
    served, count, _ = is_legal("resets", 4, out, whole, broken)
    same("resets: links served and changes", (served, count), (8, 16))


def taken_port(schema):
    """A port at which somebody else listens is a read fault, and nothing is written."""
    with socket.socket() as taken:
        taken.bind(("127.0.0.1", 0))
        taken.listen()
        server = Server(PROGRAM, schema, 1, 1, port=taken.getsockname()[1])
        same("a port that is taken", server.end(), (4, b"", b"read fault\n"))


def elsewhere(schema):
    """It listens at 127.0.0.1 alone: a client of another address of this machine is refused, and uses up no link."""
    server = Server(PROGRAM, schema, 1, 1)
    client = server.client()
    with socket.socket() as stranger:
        stranger.settimeout(10)
        try:
            stranger.connect(("127.0.0.2", server.port))
            sys.exit("FAILED: serve: a client of 127.0.0.2 was let in")
        except ConnectionRefusedError:
            pass
    same("a client beside a stranger", client.ask("PUB -"), "HIT 0 0")
    client.finish()
    same("a server that a stranger called", server.end()[0], 0)


def spent_in(server, seconds):
    """The processor time that it takes in so many seconds, in hundredths of a second."""
    before = server.ticks()
    time.sleep(seconds)
    return server.ticks() - before


def is_idle(schema):
    """A server that nobody asks takes no processor time. The least of three spells counts: its workers may still be starting."""
    server = Server(PROGRAM, schema, 64, 1)
    client = server.client()
    client.ask("PUB -")
    spent = min(spent_in(server, 1) for _ in range(3))
    client.finish()
    same("an idle server", server.end()[0], 0)
    if spent > 1:
        sys.exit(f"FAILED: serve: an idle server took {spent} hundredths of a second in each of three seconds")
    print(f"serve: an idle server with 64 seats took {spent} hundredths of a second in a second")


def fill(server, count, most):
    """Subscribes so many by one connection in bulk. Gives the connection and the processor time that the server took, in seconds.
    It stops where that is more than the most."""
    client = server.client()
    client.ask("PUB -")
    lines = b"".join(b"SUB a%d price = %d\n" % (number, number * 7919 % 1_000_001) for number in range(count))

    def send():
        with contextlib.suppress(OSError):
            client.socket.sendall(lines)

    before, spent, came, left = server.seconds(), 0, b"", count
    sender = threading.Thread(target=send, daemon=True)
    sender.start()
    while left and spent <= most:
        data = client.socket.recv(1 << 16)
        if not data:
            sys.exit("FAILED: serve: the stall: the server ended a link")
        came = came[-20:] + data
        left -= data.count(b"\n")
        spent = server.seconds() - before
    if left:
        server.kill()
    else:
        same("the stall: the last SUB", came.splitlines()[-1], b"OK %d" % count)
    sender.join()
    return client, spent


def least_fill(schema, count, most=float("inf")):
    """The least processor time of three servers that are filled so."""
    least = float("inf")
    for _ in range(3):
        server = Server(PROGRAM, schema, 1, 1)
        _, spent = fill(server, count, most)
        server.kill()
        least = min(least, spent)
    return least


def median_trip(client, first):
    """The least of five medians of an UNSUB's time until its reply, in seconds."""
    medians = []
    for spell in range(5):
        trips = []
        for number in range(TRIPS):
            time.sleep(PAUSE)
            began = time.perf_counter()
            client.socket.sendall(b"UNSUB a%d\n" % (first + spell * TRIPS + number))
            reply = client.socket.recv(64)
            trips.append(time.perf_counter() - began)
            same("the stall: an UNSUB", reply[:3], b"OK ")
        medians.append(statistics.median(trips))
    return min(medians)


def send_lfs(client, is_over):
    """Sends LFs alone and reads their replies, until it is over."""
    count = 4096
    with contextlib.suppress(OSError):
        while not is_over.is_set():
            client.socket.sendall(b"\n" * count)
            left = count
            while left:
                data = client.socket.recv(1 << 16)
                if not data:
                    return
                left -= data.count(b"\n")


def hold(schema):
    """How much longer an UNSUB takes while another client sends LFs alone, over many subscriptions."""
    server = Server(PROGRAM, schema, 2, 2)
    client, _ = fill(server, MANY, float("inf"))
    alone = median_trip(client, 0)
    is_over = threading.Event()
    other = server.client()
    flood = threading.Thread(target=send_lfs, args=(other, is_over), daemon=True)
    flood.start()
    beside = median_trip(client, 5 * TRIPS)
    is_over.set()
    flood.join()
    server.kill()
    return beside / alone


def the_stall(room):
    """A SUB costs about the same however many there are, and a client that sends LFs alone doesn't hold others for long."""
    global passed
    schema = os.path.join(room, "prices.txt")
    with open(schema, "w", encoding="ascii") as file:
        file.write("int price 0 1000000\n")
    few = least_fill(schema, FEW)
    many = least_fill(schema, MANY, FILL_BOUND * few)
    if many > FILL_BOUND * few:
        sys.exit(f"FAILED: serve: the stall: {MANY} SUBs took over {FILL_BOUND} times the processor time of {FEW}")
    # looks for a step fall among the UNSUBs or beside them, so one try says little: of five one has to hold
    held = HOLD_BOUND + 1
    for _ in range(5):
        if held > HOLD_BOUND:
            held = hold(schema)
    if held > HOLD_BOUND:
        sys.exit(f"FAILED: serve: the stall: LFs of one client made another's UNSUB {held:.1f} times as long")
    passed += 2
    print(f"serve: {MANY} SUBs took {many / few:.1f} times the processor time of {FEW}; LFs made another's UNSUB {held:.1f} times as long")


def main():
    with tempfile.TemporaryDirectory() as room:
        mixed.main(room, 1, 1, 9)
        schema, load = os.path.join(room, "schema.txt"), os.path.join(room, "load.txt")
        with open(load, encoding="latin-1", newline="") as file:
            opening, fault = model.table(file.read().replace("\r\n", "\n"))
        if fault:
            sys.exit(fault)
        one_client(schema)
        each_reply_at_once(schema)
        an_empty_box(schema)
        the_client(schema)
        taken_port(schema)
        elsewhere(schema)
        half_a_line(schema)
        never_reads(schema)
        long_line(schema, 100 << 20)
        resets(schema)
        is_idle(schema)
        the_stall(room)
        many_clients(schema, load, opening, 4, 12, 300)
        many_clients(schema, load, opening, 64, 200, 40)
    print(f"{passed} passed, 0 failed")


if __name__ == "__main__":
    main()
