#!/usr/bin/env python3
"""A client of Justmeadow that needs Python's standard library alone. A session is one over the pipes of a program that it
starts, over a connection to a server that runs, or over connections that are made again when they are lost:

    with Session(["./justmeadow", "run", "schema.txt"]) as session:
    with Connection(7000) as session:
    with Client(7000, patience=30) as session:
        session.subscribe("cheap", "price <= 250")
        print(session.publish("price=240"))          # ['cheap']

`ask` sends a line and waits for its reply, `ask_all` sends many lines from a thread while it reads their replies. As a
program it makes each line of standard input a call (`CALLS` lists them), and prints what the call returned as JSON:

    examples/client/justmeadow.py PORT [PATIENCE [HOST]]"""
import collections
import contextlib
import json
import re
import socket
import subprocess
import sys
import threading
import time

BEFORE_THE_LAST = ("NOTE ", "ROW ", "AT ")  # how those lines of a reply begin that aren't its last
# the first word of a reply's last line: how many numbers follow it, and how many names; None is as many as the last number
SHAPES = {
    **dict.fromkeys(["BAD", "LONG", "NOMEM", "SHUT"], (0, 0)),
    **dict.fromkeys(["ATTR", "DOM", "TWICE"], (0, 1)),
    **dict.fromkeys(["OK", "HELD", "BYE", "NONE", "MANY", "END"], (1, 0)),
    **dict.fromkeys(["DUP", "OTHER", "SPLIT", "# DUMP", "TAILED"], (2, 0)),
    **dict.fromkeys(["COST", "SENT"], (3, 0)),
    **dict.fromkeys(["HIT", "LIST"], (2, None)),
}
# the lines before it: their first word, and how many fields each has
ROWS = {"END": ("NOTE", 4), "# DUMP": ("ROW", 3), "TAILED": ("AT", 3)}
REFUSALS = {"BAD", "LONG", "NOMEM", "SHUT", "ATTR", "DOM", "TWICE", "MANY", "DUP", "NONE", "OTHER", "SPLIT"}
NUMBER, NAME = re.compile(r"[0-9]+"), re.compile(r"[A-Za-z0-9_.-]+")
WAITS = re.compile(r"[ \t]*(?:FETCH|TAIL[ \t]+[0-9]+)[ \t]+[0-9]+[ \t]+([0-9]+)[ \t]*\r?")

FIRST_PAUSE, LONGEST_PAUSE = 0.05, 1.0  # seconds between two attempts


class Refused(Exception):
    """A reply that says that the line wasn't done: its words, as ['DUP', '1', '0'], the first of which is its kind."""

    def __init__(self, words):
        super().__init__(" ".join(words))
        self.words, self.kind = words, words[0]


class Ended(Exception):
    """The session has ended, or the program has closed its output, before a whole reply."""


class Lost(Ended):
    """A `Client` has lost its connection and with it the reply, or couldn't connect. Its next call tries again."""


class Behind(Exception):
    """An answer spoke of fewer changes than were asked for, until the time was over."""


class Unreadable(Exception):
    """A reply that the protocol doesn't have. Nothing that follows it can be trusted."""


Reply = collections.namedtuple("Reply", "kind numbers names rows")  # rows: the fields of the lines before the last
Kept = collections.namedtuple("Kept", "condition n")  # a subscription: it was accepted as the n-th change


class Told(list):
    """What a reply lists, which is true of the first n changes."""

    def __init__(self, n, items):
        super().__init__(items)
        self.n = n


def parse(text):
    """What a reply says."""
    *before, last = text.split("\n")
    kind = "# DUMP" if last.startswith("# DUMP ") else last.split(" ", 1)[0]
    words = last[len(kind) + 1 :].split(" ") if len(last) > len(kind) else []
    count, named = SHAPES.get(kind, (len(words) + 1, 0))
    numbers, names = [int(word) for word in words[:count] if NUMBER.fullmatch(word)], words[count:]
    rows = [line.split(" ", ROWS[kind][1] - 1) for line in before] if kind in ROWS else []
    is_last_right = len(numbers) == count and len(names) == (numbers[-1] if named is None else named) and all(map(NAME.fullmatch, names))
    is_rest_right = len(rows) == len(before) and all((row[0], len(row)) == ROWS[kind] for row in rows)
    if not is_last_right or not is_rest_right or (kind in ROWS and len(rows) != numbers[-1]):
        raise Unreadable(f"no reply: {text[:200]!r}")
    return Reply(kind, numbers, names, [row[1:] for row in rows])


def understood(line, reply, wanted):
    told = parse(reply)
    if told.kind in wanted:
        return told
    if told.kind in REFUSALS:
        raise Refused(reply.split(" "))
    raise Unreadable(f"{reply[:200]!r} answers {line[:200]!r}")


def one_line(line):
    if "\n" in line:
        raise ValueError(f"a LF within {line!r} would be a second line")
    return line.encode() + b"\n"


def waiting(line, wait_ms):
    return line if wait_ms is None else f"{line} {wait_ms}"


def wait_of(line):
    """How many seconds the server may wait before it answers this line."""
    found = WAITS.fullmatch(line)
    return int(found[1]) / 1000 if found and len(found[1]) < 9 else 0


def one_name(name):
    if not NAME.fullmatch(name):
        raise ValueError(f"{name!r} is no name: it would be read as something else")
    return name


class Calls(contextlib.AbstractContextManager):
    """What may be asked of a session that has `ask`, which sends a line and returns its reply."""

    patience = 30.0  # seconds

    def __exit__(self, *_):
        self.close()

    def _told(self, line, *wanted):
        return understood(line, self.ask(line), wanted)

    def subscribe(self, name, condition):
        """Keeps the condition under the name. Returns the number of this change."""
        return self._told(f"SUB {one_name(name)} {condition}", "OK", "HELD").numbers[0]

    def unsubscribe(self, name):
        return self._told(f"UNSUB {one_name(name)}", "OK", "HELD").numbers[0]

    def _names(self, line, wanted):
        told = self._told(line, wanted)
        return Told(told.numbers[0], told.names)

    def publish(self, event, at_least=0, within=None):
        """The names of the subscriptions that the event satisfies, in order of acceptance. Where the answer speaks of fewer than
        `at_least` changes, as a mirror's may, it asks again, `within` so many seconds (`patience`), and then raises `Behind`."""
        for _ in turns(time.monotonic() + (self.patience if within is None else within)):
            told = self._names(f"PUB {event}", "HIT")
            if told.n >= at_least:
                return told
        raise Behind(f"{told.n} changes, and not {at_least}")

    def names(self):
        """The names of this session's own subscriptions, in order of acceptance."""
        return self._names("LIST", "LIST")

    def send(self, event):
        """How many letters were put into boxes, and how many weren't."""
        return tuple(self._told(f"SEND {event}", "SENT").numbers[1:])

    def fetch(self, most, wait_ms=None):
        """The next letters, at most so many: the name and the event of each. Where there is none it waits for one, at most so many
        milliseconds. There may be none before that."""
        return [(name, event) for _, name, event in self._told(waiting(f"FETCH {most}", wait_ms), "END").rows]

    def each_letter(self, call, most=100, wait_ms=10_000):
        """Calls this with the name and the event of each letter, as they come, until the call returns False."""
        while True:
            began = time.monotonic()
            letters = self.fetch(most, wait_ms)
            for name, event in letters:
                if call(name, event) is False:
                    return
            if not letters and time.monotonic() - began < FIRST_PAUSE:
                time.sleep(FIRST_PAUSE)  # a program that doesn't wait, as `run`, isn't asked without a pause

    def dump(self):
        """All live subscriptions, as the text of a load file."""
        told = self._told("DUMP", "# DUMP")
        return "".join(f"ROW {name} {condition}\n" for name, condition in told.rows) + "# DUMP {} {}\n".format(*told.numbers)

    def tail(self, place, most, wait_ms=None):
        """The changes from a place on, at most so many, as their texts. Where the list has no more than `place` it waits until it has,
        at most so many milliseconds."""
        told = self._told(waiting(f"TAIL {place} {most}", wait_ms), "TAILED")
        return Told(told.numbers[0], [change for _, change in told.rows])

    def quit(self):
        """Ends the session. Returns the number of its leave; at a mirror, where it is no change, how many changes the mirror has."""
        return self._told("QUIT", "BYE", "HELD").numbers[0]


class Session(Calls):
    def __init__(self, command):
        self.process = subprocess.Popen(command, stdin=subprocess.PIPE, stdout=subprocess.PIPE)
        self.reader, self.writer = self.process.stdout, self.process.stdin

    def close(self):
        """Ends the input, at which the session leaves, and returns the program's exit code."""
        with contextlib.suppress(BrokenPipeError):
            self.writer.close()
        self.reader.read()
        self.reader.close()
        return self.process.wait()

    def reply(self):
        """The next reply, whose lines have a LF between them. It may have any length: a line of a million names is one."""
        lines = [self._line()]
        while lines[-1].startswith(BEFORE_THE_LAST):
            lines.append(self._line())
        return "\n".join(lines)

    def _line(self):
        try:
            line = self.reader.readline()
        except OSError as error:
            raise Ended("the connection broke off") from error
        if not line.endswith(b"\n"):
            raise Ended(f"no whole reply, but {line[:200]!r}" if line else "it closed its side")
        return line[:-1].decode("ascii", "backslashreplace")

    def ask(self, line):
        """Sends one line, and returns its reply."""
        self.tell(line)
        return self.reply()

    def tell(self, line):
        """Sends one line, whose `reply` is read later."""
        try:
            self.writer.write(one_line(line))
            self._allow(line)
            self.writer.flush()
        except OSError as error:
            raise Ended("the program reads no more") from error

    def ask_all(self, lines):
        """Sends these lines, and gives their replies in order. It reads all of them before the next `ask`."""
        lines = list(lines)
        sent = [one_line(line) for line in lines]
        threading.Thread(target=self._send, args=(sent,), daemon=True).start()
        left = iter(lines)
        try:
            for line in left:
                self._allow(line)
                yield self.reply()
        finally:
            for line in left:  # a caller that stops early leaves no reply behind
                self._allow(line)
                self.reply()

    def _allow(self, line):
        """A silence as long as this line may wait."""

    def _send(self, lines):
        with contextlib.suppress(OSError, ValueError):  # the reader meets the end, and says so
            self.writer.write(b"".join(lines))
            self.writer.flush()


class Connection(Session):
    """A session of a server that runs, over a connection to it. While all its seats are taken, the first reply waits. Where
    `within` is given, a connection is lost that is silent for so many seconds while a reply is awaited, and for longer where the line
    may wait."""

    def __init__(self, port, host="127.0.0.1", within=None):
        if not 1 <= port <= 65535:  # the system would take what is left of 65536
            raise ValueError(f"port {port} isn't from 1 to 65535")
        self.within = within
        self.socket = socket.create_connection((host, port), timeout=within)
        self.socket.setsockopt(socket.IPPROTO_TCP, socket.TCP_NODELAY, 1)
        self.reader, self.writer = self.socket.makefile("rb"), self.socket.makefile("wb")

    def _allow(self, line):
        within = None if self.within is None else self.within + wait_of(line)
        if within != self.socket.gettimeout():
            self.socket.settimeout(within)

    def close(self):
        """Ends the input, at which the session leaves, and waits until it has."""
        with contextlib.suppress(OSError):
            self.writer.close()
            self.socket.shutdown(socket.SHUT_WR)
            self.reader.read()
        self.abandon()

    def abandon(self):
        """Closes the connection and waits for nothing."""
        with contextlib.suppress(OSError):
            self.socket.shutdown(socket.SHUT_RDWR)
        for part in (self.writer, self.reader, self.socket):
            with contextlib.suppress(OSError):
                part.close()


def turns(until):
    """Turns at something until that time, each after a longer pause than the one before."""
    pause = FIRST_PAUSE
    yield
    while time.monotonic() + pause < until:
        time.sleep(pause)
        pause = min(2 * pause, LONGEST_PAUSE)
        yield


class Client(Calls):
    """A session that outlives its connections. The next call after a loss connects again, and subscribes again what
    `subscriptions` has, in its order. A name may still be live then, until the server sees that the old connection has ended:
    its `DUP` is waited out. A call that may be made twice is; `send`, `fetch`, `quit`, `ask` and `ask_all` raise `Lost`. Letters
    that weren't fetched are gone. It waits at most `patience` seconds for a reply, besides what the line may wait, and as long to be
    connected and subscribed again."""

    def __init__(self, port, host="127.0.0.1", patience=30.0):
        self.address, self.patience = (port, host), max(patience, FIRST_PAUSE)
        self.subscriptions = {}  # by name; an entry that is taken out isn't subscribed again
        self.connection, self.has_ended = None, False
        self._connect()

    def close(self):
        """Ends the session for good."""
        self.has_ended = True
        if self.connection:
            self.connection.close()

    def ask(self, line):
        """Sends one line, once, and returns its reply. Where it raises `Lost`, nobody knows whether the line was done."""
        return self.ask_all([line])[0]

    def ask_all(self, lines):
        """Sends these lines, once each, and returns their replies. It reads while it sends."""
        self._connect()
        lines, replies = list(lines), []
        asked = self.connection.ask_all(lines) if len(lines) > 1 else map(self.connection.ask, lines)
        try:
            for line, reply in zip(lines, asked):
                replies.append(reply)
                self._note(line, reply)
        except Ended as error:
            self._abandon()
            raise (Ended if self.has_ended else Lost)(f"no reply to {lines[len(replies)][:200]!r}") from error
        return replies

    def _note(self, line, reply):
        """Keeps what an accepted line changed, and whether the session has ended."""
        kind, _, number = reply.partition(" ")
        command, name, condition = [*line.split(None, 2), "", "", ""][:3]
        if command == "SUB" and kind in ("OK", "HELD") and number.isdigit():
            self.subscriptions[name] = Kept(condition, int(number))
        elif command == "UNSUB" and kind in ("OK", "HELD"):
            self.subscriptions.pop(name, None)
        elif kind in ("SPLIT", "BYE") or (command == "QUIT" and kind in ("HELD", "NOMEM")):
            self.has_ended = True

    def _told(self, line, *wanted):
        ask = self.ask if line.split(" ", 1)[0] in ("SEND", "FETCH", "QUIT") else self._ask_again
        try:
            return understood(line, ask(line), wanted)
        except Unreadable:
            self.close()
            raise

    def _ask_again(self, line):
        """Asks again after a loss. A `DUP` may then be of this very line, done just before the loss: it is waited out too."""
        lost = reply = None
        for _ in turns(time.monotonic() + 2 * self.patience + wait_of(line)):
            self._connect()
            try:
                reply = self.ask(line)
            except Lost as error:
                lost, reply = error, None
                continue
            if not (lost and reply.startswith("DUP ")) or line.split(" ")[1] in self.subscriptions:
                break
        if reply is None:
            raise lost
        return reply

    def _abandon(self):
        if self.connection:
            self.connection.abandon()
        self.connection = None

    def _connect(self):
        if self.has_ended:
            raise Ended("the session has ended")
        until, fault = time.monotonic() + self.patience, None
        for _ in turns(until):
            if self.connection:
                return
            try:
                self.connection = Connection(*self.address, within=max(until - time.monotonic(), FIRST_PAUSE))
                self._subscribe_again(until)
                self.connection.within = self.patience
                return
            except Exception as error:
                self._abandon()
                if not isinstance(error, (OSError, Ended)):
                    raise
                fault = error
        raise Lost(f"no session within {self.patience} seconds: {fault}") from fault

    def _subscribe_again(self, until):
        """The first name alone until it is free, since the others of the old session are free then too."""
        left, taken = list(self.subscriptions), {}
        for _ in turns(until):
            taken = self._renew(left[:1]) or self._renew(left[1:])
            if not taken:
                return
            left = left if left[0] in taken else list(taken)
        raise Refused(next(iter(taken.values())).split(" "))

    def _renew(self, names):
        """Subscribes these names again. Returns those that are live still, with their replies."""
        lines, taken = [f"SUB {name} {self.subscriptions[name].condition}" for name in names], {}
        for name, line, reply in zip(names, lines, list(self.connection.ask_all(lines))):
            self._note(line, reply)
            if understood(line, reply, ("OK", "HELD", "DUP")).kind == "DUP":
                taken[name] = reply
        return taken


CALLS = {  # the call, and how many words it takes, of which the last is the rest of the line
    **{name: (getattr(Client, name), 1) for name in ("unsubscribe", "publish", "send")},
    "subscribe": (Client.subscribe, 2),
    "fetch": (lambda client, rest: client.fetch(*rest.split(" ", 1)), 1),
    "letters": (lambda client, count: gathered(client, int(count)), 1),
    "tail": (lambda client, place, rest: client.tail(place, *rest.split(" ", 1)), 2),
    **{"list": (Client.names, 0), "dump": (Client.dump, 0), "quit": (Client.quit, 0)},
    "lines": (lambda client, rest: client.ask_all(rest.split(";")), 1),
    "kept": (lambda client: {name: kept.n for name, kept in client.subscriptions.items()}, 0),
}


def gathered(client, count):
    """So many letters, as they come."""
    letters = []
    client.each_letter(lambda *letter: letters.append(letter) or len(letters) < count, 1)
    return letters


def answer(client, line):
    call, *words = line.split(" ", 1)
    if call not in CALLS:
        return {"wrong": f"there is no call {call}"}
    function, count = CALLS[call]
    given = words[0].split(" ", count - 1) if words and count else words
    if len(given) != count:
        return {"wrong": f"{call} takes {('no words', 'the rest of the line as its word', 'a word and the rest of the line')[count]}"}
    try:
        result = function(client, *given)
        return [result.n, result] if isinstance(result, Told) else result
    except (Refused, Ended, Unreadable, KeyError, TypeError, ValueError) as error:
        return {type(error).__name__.lower() if isinstance(error, (Refused, Ended, Unreadable)) else "wrong": str(error)}


def read_words(port, patience="30", host="127.0.0.1"):
    """The port, the host and the patience that these words of a command line give. Raises ValueError where they give none."""
    number, seconds = int(port), float(patience)
    if not (1 <= number <= 65535 and 0 <= seconds <= 10**6):
        raise ValueError
    return number, host, seconds


def main(port, host, patience):
    try:
        with Client(port, host, patience) as client:
            for line in sys.stdin:
                print(json.dumps(answer(client, line.rstrip("\n"))), flush=True)
    except Lost as error:
        sys.exit(f"justmeadow: {error}")

if __name__ == "__main__":
    if sys.argv[1:] == ["--help"]:
        sys.exit(print(__doc__))
    try:
        words = read_words(*sys.argv[1:])
    except (TypeError, ValueError):
        sys.exit("justmeadow: PORT [PATIENCE [HOST]]: a port from 1 to 65535, and for how many seconds to wait")
    main(*words)
