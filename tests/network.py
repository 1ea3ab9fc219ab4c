"""A server over TCP, clients that behave and clients that don't, and the judge of what they saw: a part of tests/serve.py and tests/mirror.py."""
import contextlib
import select
import socket
import struct
import subprocess
import sys
import time

sys.dont_write_bytecode = True
import legal
import letters
import model
import ports
from changes import History, Illegal, number, require

WAIT = 60


class Server:
    """The program, serving so many links of a free port, or of this one. `end` waits for it, and gives its status, its output and
    its faults."""

    command, input = "serve", subprocess.DEVNULL

    def __init__(self, program, schema, seats, links, load=(), port=None):
        def words(port):
            return [program, self.command, schema, str(port), str(seats), str(links), *load]

        options = {"stdin": self.input, "stdout": subprocess.PIPE, "stderr": subprocess.PIPE}
        self.port, self.seats = port, seats
        if port:
            self.process = subprocess.Popen(words(port), **options)
        else:
            self.process, self.port = ports.serving(words, **options)

    def end(self):
        out, err = self.process.communicate(timeout=WAIT)
        return self.process.returncode, out, err

    def client(self):
        return Client(self.port, self.process)

    def ticks(self):
        """The processor time that it took so far, in hundredths of a second."""
        with open(f"/proc/{self.process.pid}/stat", encoding="ascii") as stat:
            fields = stat.read().rpartition(")")[2].split()
        return int(fields[11]) + int(fields[12])

    def seconds(self):
        """The same in seconds, by the clock that Linux has for it, which tells nanoseconds."""
        return time.clock_gettime(~self.process.pid << 3 | 2)

    def kill(self):
        self.process.kill()
        self.process.communicate()


class Client:
    """One connection, with all bytes that were sent and all that came back."""

    def __init__(self, port, process):
        until = time.monotonic() + WAIT
        while True:
            try:
                self.socket = socket.create_connection(("127.0.0.1", port), timeout=WAIT)
                break
            except ConnectionRefusedError:
                if process.poll() is not None or time.monotonic() > until:
                    raise
                time.sleep(0.01)
        self.socket.setsockopt(socket.IPPROTO_TCP, socket.TCP_NODELAY, 1)
        self.sent, self.came = b"", b""

    def send(self, data):
        self.socket.sendall(data)
        self.sent += data

    def ask(self, line):
        """Sends a line, and returns the last line of its reply."""
        self.send(line.encode() + b"\n")
        while True:
            text = self.line()
            if not text.startswith(("NOTE ", "ROW ", "AT ")):
                return text

    def line(self):
        at = len(self.came)
        while b"\n" not in self.came[at:]:
            data = self.socket.recv(1)
            if not data:
                raise EOFError("the server ended the link")
            self.came += data
        return self.came[at:-1].decode("ascii")

    def finish(self):
        """Sends no more, reads all that comes, and closes."""
        self.socket.shutdown(socket.SHUT_WR)
        parts = [self.came]
        while True:
            data = self.socket.recv(1 << 16)
            if not data:
                break
            parts.append(data)
        self.came = b"".join(parts)
        self.socket.close()

    def reset(self):
        """Breaks the connection off."""
        self.socket.setsockopt(socket.SOL_SOCKET, socket.SO_LINGER, struct.pack("ii", 1, 0))
        self.socket.close()

    def close(self):
        with contextlib.suppress(OSError):
            self.socket.close()


class Link(Client):
    """A client that reads what comes in pieces, and has whole replies."""

    def __init__(self, server, within=WAIT):
        super().__init__(server.port, server.process)
        self.socket.settimeout(within)
        self.came, self.at = bytearray(), 0

    def line(self):
        while (end := self.came.find(b"\n", self.at)) < 0:
            data = self.socket.recv(1 << 16)
            if not data:
                raise EOFError("the server ended the link")
            self.came += data
        text, self.at = self.came[self.at : end].decode("ascii"), end + 1
        return text

    def reply(self):
        lines = [self.line()]
        while lines[-1].startswith(("NOTE ", "ROW ", "AT ")):
            lines.append(self.line())
        return lines

    def asked(self, line):
        self.send(line.encode() + b"\n")
        return self.reply()

    def is_quiet(self, seconds):
        return self.at == len(self.came) and not select.select([self.socket], [], [], seconds)[0]


class Cut(legal.Walk):
    """A transcript that may stop within a reply, of which whole lines came."""

    def judge(self, lines):
        with contextlib.suppress(StopIteration):
            for line in lines:
                if self.ended:
                    break
                command, said = self.read(line, legal.reading)
                self.answer(command, said)

    def next(self):
        if self.at >= len(self.replies):
            raise StopIteration
        return super().next()


class SeatMail(letters.Mail):
    """Sessions of one seat share a box one after another, so of letters it is judged only that each that came was sent."""

    def judge(self, require_that):
        for (n, text), count in self.notes.items():
            require_that(count <= self.sends.get((n, text), 0), f"{count} letters of {n} {text[:200]} came, and fewer were put")

    def stored(self, sender, count):
        pass

    def emptied(self, session):
        pass


def log_of(output):
    """The changes that the server wrote, and how many links it says that it served."""
    require(output.endswith(b"\n"), "the output doesn't end with LF")
    lines = output.decode("ascii", "backslashreplace").split("\n")[:-1]
    changes = lines[1:-1]
    require(len(lines) > 1 and lines[0] == f"== LOG {len(changes)}", "the head isn't that of", len(changes), "changes")
    words = lines[-1].split(" ")
    require(len(words) == 3 and words[0] == "SERVED" and words[2] == str(len(changes)), "the last line is", lines[-1])
    return changes, number(words[1])


def session_of(client, changes, taken):
    """The session that a transcript belongs to, by the first change that it was told of, or else one that only left."""
    for reply in client.came.decode("ascii", "backslashreplace").split("\n"):
        words = reply.split(" ")
        if words[0] in ("OK", "HELD", "BYE") and len(words) == 2:
            return int(changes[int(words[1]) - 1].split(" ")[1])
    alone = {}
    for change in changes:
        command, session = change.split(" ")[:2]
        alone[int(session)] = command == "BYE" and int(session) not in alone
    free = [session for session, is_bye in sorted(alone.items()) if is_bye and session not in taken]
    require(free, "no session is left for a client without a change")
    return free[0]


def judge(opening, seats, output, whole, cut=()):
    """Whether every transcript is legal over the printed list. Of clients in `cut` what came may stop within a reply."""
    changes, served = log_of(output)
    sessions = [int(change.split(" ")[1]) for change in changes]
    most = max([seats, *sessions])
    history = History(changes, opening, most)
    mail, readings, taken, kinds = SeatMail(most), {}, set(), {}
    clients = [(client, legal.Walk) for client in whole] + [(client, Cut) for client in cut]
    # those that were told of a change first, since theirs is known
    clients.sort(key=lambda it: not any(it[0].came.startswith(word) or b"\n" + word in it[0].came for word in (b"OK ", b"HELD ", b"BYE ")))
    for client, kind in clients:
        if kind is Cut and b"\n" not in client.came:
            continue
        session = session_of(client, changes, taken)
        require(session not in taken, "two clients were session", session)
        taken.add(session)
        replies = client.came.decode("ascii", "backslashreplace").split("\n")
        rest = replies.pop()
        require(kind is Cut or not rest, "a reply without LF:", rest)
        walk = kind(session, history, replies, mail, readings)
        walk.judge(legal.lines_of(client.sent))
        for word, count in walk.kinds.items():
            kinds[word] = kinds.get(word, 0) + count
    mail.judge(require)
    require(history.gone == set(session for session in sessions if session), "a session didn't leave")
    return served, len(changes), kinds
