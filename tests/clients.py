#!/usr/bin/env python3
"""Drives `serve` through the demo of a client of examples/, which makes each line a call and prints what it returned: by the page
on the protocol, with many lines at once, through a relay that breaks connections off, and to a server of replies that `serve`
hardly ever gives. Its words: the program, and the demo's command. All cases are run. The last line is `N passed, N failed`, and
the status is 1 where a case failed."""
import contextlib
import json
import os
import socket
import subprocess
import sys
import tempfile
import threading
import time

TOP = os.path.dirname(os.path.dirname(os.path.abspath(__file__)))
sys.dont_write_bytecode = True
import ports  # noqa: E402

sys.path.insert(0, os.path.join(TOP, "examples", "client"))
from justmeadow import Connection  # noqa: E402

PROGRAM, COMMAND = sys.argv[1], sys.argv[2:]
WAIT = 15  # seconds for what is expected to come
counts, lock = {True: 0, False: 0}, threading.Lock()


def case(what, given, wanted):
    with lock:
        counts[given == wanted] += 1
    if given != wanted:
        print(f"FAILED: {COMMAND[-1]}: {what}: {str(given)[:300]}, and not {str(wanted)[:300]}")


def is_soon(what, call):
    """Waits until the call says yes."""
    until = time.monotonic() + WAIT
    while not call() and time.monotonic() < until:
        time.sleep(0.01)
    case(what, bool(call()), True)


def listening(port=0):
    listener = socket.socket()
    listener.setsockopt(socket.SOL_SOCKET, socket.SO_REUSEADDR, 1)
    listener.bind(("127.0.0.1", port))
    listener.listen()
    return listener


class Server:
    """The program, serving a free port. `watcher` is a session of its own, which makes no change while it lasts."""

    def __init__(self, schema, seats, links, *load):
        def words(port):
            return [PROGRAM, "serve", schema, str(port), str(seats), str(links), *load]

        self.process, self.port = ports.serving(words, stdin=subprocess.DEVNULL, stdout=subprocess.DEVNULL)

    def watcher(self):
        return Connection(self.port, within=WAIT)

    def __enter__(self):
        return self

    def __exit__(self, *_):
        self.process.kill()
        self.process.wait()


class Demo:
    """A client's demo, connected to this port. A demo that hangs is ended, and then answers nothing."""

    def __init__(self, port, patience=WAIT):
        words = [*COMMAND, str(port), str(patience)]
        self.process = subprocess.Popen(words, stdin=subprocess.PIPE, stdout=subprocess.PIPE)
        self.timer = threading.Timer(2 * WAIT, self.process.kill)
        self.timer.start()

    def __enter__(self):
        return self

    def __exit__(self, *_):
        with contextlib.suppress(BrokenPipeError):
            self.process.stdin.close()
        self.process.stdout.read()
        case("the demo's status", self.process.wait(), 0)
        self.timer.cancel()

    def call(self, line):
        """What the call returned, or how it failed: `refused` with the reply, or one word."""
        try:
            self.process.stdin.write(line.encode() + b"\n")
            self.process.stdin.flush()
            given = json.loads(self.process.stdout.readline())
        except (BrokenPipeError, ValueError):
            return "no answer"
        if isinstance(given, dict) and given.keys() & {"refused", "lost", "ended", "unreadable", "wrong"}:
            ((how, why),) = given.items()
            return f"refused {why}" if how == "refused" else how
        return given

    def calls(self, table):
        for line, wanted in table:
            case(line[:100], self.call(line), wanted)


class Relay:
    """Passes on what comes to its port. `drop` swallows what one side sends, `cut` breaks the client's connections off."""

    def __init__(self, server):
        self.server, self.pairs, self.kept, self.port = server, [], [], 0
        self.open()

    def open(self):
        self.listener = listening(self.port)
        self.port = self.listener.getsockname()[1]
        threading.Thread(target=self._accept, args=(self.listener,), daemon=True).start()

    def close(self):
        self.listener.shutdown(socket.SHUT_RDWR)
        self.listener.close()

    def _accept(self, listener):
        with contextlib.suppress(OSError):
            while True:
                near = listener.accept()[0]
                far = socket.create_connection(("127.0.0.1", self.server.port))
                pair = {"near": near, "far": far, "is_kept": False, "drops": None}
                self.pairs.append(pair)
                for side, other in (("near", "far"), ("far", "near")):
                    threading.Thread(target=self._pump, args=(pair, side, other), daemon=True).start()

    @staticmethod
    def _pump(pair, side, other):
        with contextlib.suppress(OSError):
            while data := pair[side].recv(1 << 16):
                if pair["drops"] != side:
                    pair[other].sendall(data)
        with contextlib.suppress(OSError):
            if not pair["is_kept"]:
                pair[other].shutdown(socket.SHUT_WR if other == "far" else socket.SHUT_RDWR)

    def drop(self, side):
        self.pairs[-1]["drops"] = side

    def cut(self, is_kept=False):
        """Where it is kept, the server doesn't see the end until `release`."""
        pair = self.pairs[-1]
        pair["is_kept"] = is_kept
        with contextlib.suppress(OSError):
            pair["near"].shutdown(socket.SHUT_RDWR)

    def release(self):
        for pair in self.pairs:
            with contextlib.suppress(OSError):
                if pair["is_kept"]:
                    pair["far"].shutdown(socket.SHUT_RDWR)


def later(seconds, call, *words):
    threading.Timer(seconds, call, words).start()


class Script:
    """Serves one connection after another, each with these replies in order, whatever the lines are, and then closes it."""

    def __init__(self, *connections):
        self.listener, self.served = listening(), 0
        self.port = self.listener.getsockname()[1]
        threading.Thread(target=self._serve, args=(connections,), daemon=True).start()

    def _serve(self, connections):
        for replies in connections:
            peer = self.listener.accept()[0]
            self.served += 1
            with peer, peer.makefile("rb") as lines, contextlib.suppress(OSError):
                for reply in replies:
                    if lines.readline():
                        peer.sendall(reply.encode() + b"\n")


def by_the_page(schema, load):
    """The replies that docs/use/protocol.md has, in one session behind a load file of one row, z."""
    long = "x" * 65536
    with Server(schema, 1, 1, "--load", load) as server, Demo(server.port) as demo:
        demo.calls([
            ("subscribe a price >= 10", 2),
            ("subscribe a all", "refused DUP 2 1"),
            ("subscribe z all", "refused DUP 2 0"),
            ("subscribe b side in {buy}", 3),
            ("publish price=12 side=buy", [3, ["a", "b"]]),
            ("publish price={12, 1}", [3, ["z", "a"]]),
            ("publish -", [3, []]),
            ("unsubscribe z", "refused OTHER 3 0"),
            ("unsubscribe nobody", "refused NONE 3"),
            ("unsubscribe a", 4),
            ("list", [4, ["b"]]),
            ("publish cost=1", "refused ATTR cost"),
            ("publish price=1001", "refused DOM price"),
            ("publish price=1 price=2", "refused TWICE price"),
            ("publish price={}", "refused BAD"),
            ("subscribe m " + " and ".join(["price != 1"] * 33), "refused MANY 33"),
            ("publish price={" + ",".join(map(str, range(65))) + "}", "refused MANY 65"),
            (f"publish {long}", "refused LONG"),
            ("subscribe a{ all", "wrong"),
            ("subscribe a", "wrong"),
            ("list 1", "wrong"),
            ("fetch", "wrong"),
            ("fetch x", "refused BAD"),
            ("quit now", "wrong"),
            ("nothing", "wrong"),
            ("send side={sell,buy}", [1, 0]),
            ("send price=02 side=buy", [1, 1]),
            ("fetch 1", [["b", "side={buy,sell}"]]),
            ("fetch 10", [["b", "price=2 side=buy"]]),
            ("fetch 10", []),
            ("fetch 10 0", []), ("fetch 10 60001", "refused BAD"), ("fetch 10 1 2", "refused BAD"),
            ("tail 4 2 0", [4, []]), ("tail 4 2 x", "refused BAD"),
            ("tail 1 2", [4, ["SUB 1 0 a price >= 10", "SUB 1 1 b side in {buy}"]]),
            ("tail 0 1000001", "refused BAD"),
            ("dump", "ROW z price < 5\nROW b side in {buy}\n# DUMP 4 2\n"),
            ("lines SUB p all;PUB -;x;FETCH 1;TAIL 4 5;DUMP;LIST;UNSUB p", [
                "OK 5", "HIT 5 1 p", "BAD", "END 0", "AT 4 SUB 1 3 p all\nTAILED 5 1",
                "ROW z price < 5\nROW b side in {buy}\nROW p all\n# DUMP 5 3", "LIST 5 2 b p", "OK 6"]),
            ("kept", {"b": 3}),
            ("quit", 7),
            ("list", "ended"),
        ])  # fmt: skip


def at_once(schema):
    """8 MB of lines and 12 MB of replies: more than the system keeps in between, so a client has to read while it sends."""
    names = [f"subscription-number-{number:040d}" for number in range(500)]
    with Server(schema, 1, 1) as server, Demo(server.port) as demo:
        case("many SUBs at once", demo.call("lines " + ";".join(f"SUB {name} all" for name in names)), [f"OK {n + 1}" for n in range(500)])
        hit = " ".join(["HIT 500 500", *names])
        case("many PUBs at once", demo.call("lines " + ";".join(["PUB -" + " " * 20000] * 400)), [hit] * 400)
        case("a PUB after them", demo.call("publish -"), [500, names])


def broken_off(schema):
    """Connections that are lost: what was subscribed is so again, and the names of the old session are waited out."""
    with Server(schema, 8, 1000) as server, server.watcher() as watcher:
        relay = Relay(server)
        with Demo(relay.port) as demo:
            demo.calls([("subscribe a price >= 10", 1), ("subscribe b all", 2)])
            relay.cut()
            demo.calls([("list", [5, ["a", "b"]]), ("kept", {"a": 4, "b": 5}), ("publish price=12", [5, ["a", "b"]]), ("unsubscribe a", 6)])
            relay.close()
            relay.cut()
            later(0.3, relay.open)
            demo.calls([("publish -", [8, ["b"]])])
            relay.cut(is_kept=True)
            later(0.4, relay.release)
            demo.calls([("publish -", [10, ["b"]]), ("kept", {"b": 10})])
            relay.drop("near")
            later(0.2, relay.cut)
            demo.calls([("send -", "lost"), ("list", [12, ["b"]])])
            relay.drop("far")
            later(0.2, relay.cut, True)
            later(0.6, relay.release)
            demo.calls([("subscribe c price = 1", 16), ("kept", {"b": 15, "c": 16}), ("quit", 17)])
        with Demo(relay.port) as demo:
            demo.calls([("list", [17, []])])
            relay.drop("far")
            later(0.2, relay.cut, True)
            later(0.6, relay.release)
            demo.calls([("subscribe d all", 20), ("list", [20, ["d"]])])
        is_soon("the last leave", lambda: watcher.tail(0, 0).n == 21)


def one_seat(schema):
    """Where the old connection keeps the only seat, the new one has no reply until the server sees that it has ended."""
    with Server(schema, 1, 1000) as server:
        server.watcher().close()
        relay = Relay(server)
        with Demo(relay.port) as demo:
            demo.calls([("subscribe a all", 2)])
            relay.cut(is_kept=True)
            later(0.4, relay.release)
            demo.calls([("list", [4, ["a"]])])


def given_up(schema):
    """What doesn't come within the limit is an error, and the next call tries again."""
    with Server(schema, 8, 1000) as server, server.watcher() as watcher:
        relay = Relay(server)
        with Demo(relay.port, 1) as demo:
            demo.calls([("subscribe b all", 1)])
            relay.cut(is_kept=True)
            demo.calls([("list", "refused DUP 1 0")])
            relay.release()
            is_soon("two leaves", lambda: watcher.tail(0, 0).n == 3)
            demo.calls([("list", [4, ["b"]])])
            relay.close()
            relay.cut()
            demo.calls([("list", "lost")])
            relay.open()
            demo.calls([("list", [6, ["b"]])])
            relay.drop("far")
            demo.calls([("publish -", [8, ["b"]])])
            time.sleep(1.2)  # to be silent while nothing is asked is no loss
            demo.calls([("list", [8, ["b"]])])


def waits(schema):
    """Lines that wait, through a client that has less patience than that; and letters as they come."""

    def asked(what, demo, line, wanted, least, most):
        began = time.monotonic()
        case(line, demo.call(line), wanted)
        case(f"{what}: {line}: between {least} and {most} seconds", least <= time.monotonic() - began <= most, True)

    with Server(schema, 8, 1000) as server, server.watcher() as watcher:
        relay = Relay(server)
        with Demo(relay.port, 1) as demo:
            demo.calls([("subscribe a all", 1)])
            asked("a wait over the patience", demo, "fetch 5 1500", [], 1.4, 4)
            asked("a wait over the patience", demo, "tail 1 5 1500", [1, []], 1.4, 4)
            asked("a line of one's own", demo, "lines FETCH 5 1500", ["END 0"], 1.4, 4)
            later(1.2, watcher.send, "price=7")
            asked("a wait for a letter", demo, "fetch 5 20000", [["a", "price=7"]], 0.5, WAIT)
            later(1.2, watcher.subscribe, "b", "side = buy")
            given = demo.call("tail 1 1 20000")
            case("a wait for a change", (given[0], [change.split(" ")[3:] for change in given[1]]), (2, [["b", "side", "=", "buy"]]))
            for number in range(3):
                later(0.3 * (number + 1), watcher.send, f"price={number}")
            case("letters as they come", demo.call("letters 3"), [["a", f"price={number}"] for number in range(3)])
            later(0.3, relay.cut)
            demo.calls([("fetch 5 20000", "lost"), ("kept", {"a": 1})])
            later(0.3, relay.cut)
            case("a TAIL that was lost while it waited is asked again", len(demo.call(f"tail {watcher.tail(0, 0).n} 1 20000")[1]), 1)


def rare():
    """Replies that want of memory alone brings, or nothing."""
    script = Script(["HELD 5", "SHUT", "NOMEM", "SENT 7 0 3", "COST 7 3 5", "TWICE a", "NOTE 3 a -\nNOTE 4 b c={1,2} d=0\nEND 2", "HELD 8", "SPLIT 8 9"], [])
    with Demo(script.port) as demo:
        demo.calls([
            ("subscribe a all", 5), ("kept", {"a": 5}), ("publish -", "refused SHUT"), ("dump", "refused NOMEM"), ("send -", [0, 3]),
            ("lines COST -;COST a=1 a=1", ["COST 7 3 5", "TWICE a"]), ("fetch 2", [["a", "-"], ["b", "c={1,2} d=0"]]),
            ("unsubscribe a", 8), ("kept", {}), ("list", "refused SPLIT 8 9"), ("list", "ended"),
        ])  # fmt: skip
    case("connections after a SPLIT", script.served, 1)
    for reply, wanted in (("HELD 9", 9), ("NOMEM", "refused NOMEM")):
        with Demo(Script([reply]).port) as demo:
            demo.calls([("quit", wanted), ("list", "ended")])
    for reply in ("HIT 1 2 a", "HIT 1 1 a{", "HIT  1 0", "OK 1", "OK x", "HELLO", "", "# DUMP 1", "NOTE 1 a -\nEND 2", "ROW a all\nEND 1"):
        with Demo(Script([reply], ["HIT 1 0"]).port) as demo:
            demo.calls([("publish -", "unreadable"), ("list", "ended")])


def restored_elsewhere():
    """A server that was begun anew may refuse what was subscribed, and one that closes each connection isn't asked without pause."""
    with Demo(Script(["OK 1"], ["ATTR cost"], ["OK 1", "LIST 1 1 a"]).port) as demo:
        demo.calls([("subscribe a cost = 1", 1), ("list", "refused ATTR cost"), ("list", [1, ["a"]])])
    script = Script(["OK 1"], *[[]] * 100)
    with Demo(script.port, 1) as demo:
        demo.calls([("subscribe a all", 1), ("list", "lost")])
    case("attempts within a second", 2 <= script.served - 1 <= 6, True)


def bad_words():
    """A port that there isn't, or a patience that is no number, ends the demo at once, with its words and no trace of its code."""
    for words in ((), ("x",), ("0",), ("65536",), ("104419", "3"), ("7000", "x"), ("7000", "nan"), ("7000", "-3"), ("7000", "3", "127.0.0.1", "x")):
        ended = subprocess.run([*COMMAND, *words], input=b"publish -\n", capture_output=True, check=False, timeout=WAIT)
        said = ended.stderr.decode()
        case(f"the words {words}", (ended.returncode, ended.stdout, "PORT [PATIENCE [HOST]]" in said, said.count("\n")), (1, b"", True, 1))


def drive(schema):
    """The parts at once, since most of their time they wait."""
    load = schema + ".load"
    with open(schema, "w", encoding="ascii") as file:
        file.write("int price 0 1000\nsym side buy sell\n")
    with open(load, "w", encoding="ascii") as file:
        file.write("ROW z price < 5\n")
    parts = [(by_the_page, schema, load), (at_once, schema), (broken_off, schema), (one_seat, schema), (given_up, schema)]
    parts += [(waits, schema), (rare,), (restored_elsewhere,), (bad_words,)]

    def run(part, *words):
        try:
            part(*words)
        except Exception as fault:
            case(part.__name__, repr(fault), "no fault")

    threads = [threading.Thread(target=run, args=part) for part in parts]
    for thread in threads:
        thread.start()
    for thread in threads:
        thread.join()
    print(f"{counts[True]} passed, {counts[False]} failed")


if __name__ == "__main__":
    with tempfile.TemporaryDirectory() as room:
        drive(os.path.join(room, "schema.txt"))
    sys.exit(counts[False] > 0)
