"""Drives the example of a cluster: `serve`, tell.py, put.py, a Redis of its own with a replica, get.py, mirrors that are asked all the
time, and `follow`, each of which is killed in turn and started again. Then the feed has the leader's list and nothing else, each
reply of each mirror was true of it, and `follow` answers from it as the leader does. mirror.sh ends with its parts, and get.py where
its stream has another list; tell.py waits for a mirror that was started anew, and ends where nobody answers. Its words: the program, and a folder to work in. Its last line is `N passed, N failed`."""
import contextlib
import os
import pathlib
import select
import signal
import socket
import subprocess
import sys
import threading
import time

import redis

sys.dont_write_bytecode = True
import ports  # noqa: E402
from changes import Illegal  # noqa: E402
from mirrors import Mirror, judge  # noqa: E402

TOP = pathlib.Path(__file__).resolve().parent.parent
sys.path.insert(0, str(TOP / "examples" / "client"))
from justmeadow import Connection, Ended  # noqa: E402

CLUSTER, SCHEMA = TOP / "examples" / "cluster", TOP / "examples" / "follower" / "schema.txt"
PATIENCE = 40  # seconds until what is waited for counts as a failure


class Failed(Exception):
    pass


def wait_until(what, holds):
    until = time.monotonic() + PATIENCE
    while not holds():
        if time.monotonic() > until:
            raise Failed(f"not within {PATIENCE} seconds: {what}")
        time.sleep(0.01)


def connected(port):
    """A session of a server that has just been started."""
    until = time.monotonic() + PATIENCE
    while True:
        try:
            return Connection(port)
        except ConnectionRefusedError:
            if time.monotonic() > until:
                raise
            time.sleep(0.01)


class Relay:
    """Stands between tell.py and the leader, so that their connections can be broken."""

    def __init__(self, port):
        self.port, self.target, self.open = ports.free_port(), port, []
        self.start()

    def start(self):
        self.door = socket.create_server(("127.0.0.1", self.port))
        threading.Thread(target=self.serve, args=(self.door,), daemon=True).start()

    def serve(self, door):
        with contextlib.suppress(OSError):
            while True:
                near = door.accept()[0]
                try:
                    pair = [near, socket.create_connection(("127.0.0.1", self.target))]
                except OSError:  # no leader is there now
                    near.close()
                    continue
                self.open += pair
                threading.Thread(target=self.carry, args=(pair,), daemon=True).start()

    def carry(self, pair):
        with contextlib.suppress(OSError, ValueError):
            while all(self.pass_on(pair, end) for end in select.select(pair, [], [])[0]):
                pass
        for end in pair:
            end.close()

    def pass_on(self, pair, end):
        piece = end.recv(65536)
        pair[pair[0] is end].sendall(piece)
        return piece

    def stop(self):
        for each in [self.door, *self.open]:
            with contextlib.suppress(OSError):
                each.shutdown(socket.SHUT_RDWR)
            each.close()
        self.open = []


class Cluster:
    def __init__(self, program, room):
        self.program, self.room, self.started = program, pathlib.Path(room), []
        self.count = 0
        self.redis_port, self.replica_port = ports.free_port(), ports.free_port()
        self.url, self.replica_url = (f"redis://127.0.0.1:{port}" for port in (self.redis_port, self.replica_port))
        self.store = redis.Redis(port=self.redis_port)
        self.mirrors, self.pairs = [], []

    def start(self, *words, **pipes):
        process = subprocess.Popen([str(word) for word in words], **pipes)
        self.started.append(process)
        return process

    def start_redis(self):
        self.server = self.start(
            "redis-server", "--port", self.redis_port, "--bind", "127.0.0.1", "--dir", self.room, "--save", "", "--appendonly", "yes", "--appendfsync", "always",
            stdout=subprocess.DEVNULL,
        )  # fmt: skip

    def start_replica(self):
        self.start(
            "redis-server", "--port", self.replica_port, "--bind", "127.0.0.1", "--dir", self.room, "--save", "", "--dbfilename", "replica.rdb",
            "--replicaof", "127.0.0.1", self.redis_port, stdout=subprocess.DEVNULL,
        )  # fmt: skip

    def start_mirrors(self):
        """One of the primary, and one of its replica."""
        get = [sys.executable, CLUSTER / "get.py", "feed", "--beat", "0.2", "--redis"]
        for url in (self.url, self.replica_url):
            self.mirrors.append(Mirror(self.program, SCHEMA, [*get, url], self.room / "said"))

    def start_leader(self):
        def words(port):
            return [self.program, "serve", str(SCHEMA), str(port), "6", "1000000"]

        self.leader, self.port = ports.serving(words, stdin=subprocess.DEVNULL, stdout=subprocess.DEVNULL)
        self.started.append(self.leader)
        self.writer = connected(self.port)

    def start_telling(self, port):
        """tell.py and put.py, with a pipe between them."""
        read, write = os.pipe()
        with open(self.room / "said", "a", encoding="utf-8") as said:
            teller = self.start(sys.executable, CLUSTER / "tell.py", port, stdout=write, stderr=said)
            putter = self.start(sys.executable, CLUSTER / "put.py", "feed", "--redis", self.url, stdin=read, stderr=said)
        os.close(read)
        os.close(write)
        return teller, putter

    def start_getting(self, place):
        with open(self.room / "feed", "ab") as feed, open(self.room / "said", "a", encoding="utf-8") as said:
            return self.start(sys.executable, CLUSTER / "get.py", "feed", "--redis", self.url, "--place", place, stdout=feed, stderr=said)

    def kill(self, *processes):
        for process in processes:
            process.send_signal(signal.SIGKILL)
            process.wait()

    def change(self, count):
        """Subscriptions, of which every seventh is removed again."""
        for number in range(self.count, self.count + count):
            self.writer.subscribe(f"s{number}", f"price between {number % 900} and {number % 900 + 50} and side != {['buy', 'sell', 'hold'][number % 3]}")
            if number % 7 == 0:
                self.writer.unsubscribe(f"s{number}")
        self.count += count

    def stored(self):
        """How many changes the stream has."""
        try:
            return self.store.xlen("feed")
        except redis.ConnectionError:
            return -1

    def arrived(self):
        return (self.room / "feed").read_bytes().count(b"\n")

    def length(self):
        """How many changes the leader has, with the leaves of tellers that are gone."""
        return int(self.writer.ask("TAIL 0 0").split(" ")[1])

    def all_arrive(self, what):
        wait_until(what, lambda: self.arrived() == self.length())
        for number, mirror in enumerate(self.mirrors, 1):
            wait_until(f"{what}, at mirror {number}", lambda mirror=mirror: mirror.length() == self.length())

    def stop(self):
        for mirror in self.mirrors:
            mirror.stop()
        for pair in self.pairs:
            pair.process.terminate()
            pair.process.wait()
        for process in self.started:
            if process.poll() is None:
                process.kill()
                process.wait()


def tail(session):
    """All lines of changes that the leader has."""
    lines = []
    while True:
        *some, _ = session.ask(f"TAIL {len(lines)} 1000").split("\n")
        if not some:
            return "".join(line + "\n" for line in lines)
        lines += some


def all_parts_run(c):
    c.relay = Relay(c.port)
    c.teller, c.putter = c.start_telling(c.relay.port)
    c.getter = c.start_getting(0)
    c.start_mirrors()
    c.change(1500)
    c.all_arrive("the first changes")


def outlives_put(c):
    c.kill(c.putter)
    c.change(100)
    wait_until("tell.py ends where nobody reads", lambda: c.teller.poll() == 1)
    c.teller, c.putter = c.start_telling(c.relay.port)
    c.all_arrive("the changes once put.py is started again")


def outlives_tell(c):
    c.kill(c.teller)
    c.change(100)
    wait_until("put.py ends with its input", lambda: c.putter.poll() == 0)
    c.teller, c.putter = c.start_telling(c.relay.port)
    c.all_arrive("the changes once tell.py is started again")


def outlives_get(c):
    """It goes on behind the whole lines of its file."""
    c.kill(c.getter)
    c.change(100)
    wait_until("the stream has the changes", lambda: c.stored() == c.length())
    feed = c.room / "feed"
    whole = feed.read_bytes()
    feed.write_bytes(whole[: whole.rfind(b"\n") + 1])
    c.getter = c.start_getting(c.arrived())
    c.all_arrive("the changes once get.py is started again")


def outlives_redis(c):
    c.kill(c.server)
    c.change(100)
    time.sleep(0.2)
    c.start_redis()
    c.all_arrive("the changes once Redis is started again")


def outlives_mirrors(c):
    """A mirror that is started anew begins at the first change."""
    for mirror in c.mirrors:
        mirror.kill()
        c.change(100)
        mirror.start()
        c.all_arrive("the changes once a mirror is started again")


def outlives_connection(c):
    c.relay.stop()
    c.change(100)
    time.sleep(0.2)
    c.relay.start()
    c.all_arrive("the changes once the leader can be reached again")


def has_two_tellers(c):
    c.second = c.start_telling(c.port)
    c.change(300)
    c.all_arrive("the changes of two tellers")
    time.sleep(0.3)
    running = [process.poll() for process in (c.teller, c.putter, c.getter, *c.second)]
    if running != [None] * 5:
        raise Failed(f"a part has ended: {running}")


def is_the_leaders(c):
    wait_until("the feed has the leader's lines", lambda: (c.room / "feed").read_text(encoding="ascii") == tail(c.writer))
    once = subprocess.run([sys.executable, CLUSTER / "get.py", "feed", "--redis", c.url, "--once"], capture_output=True, check=False)
    if once.returncode or once.stdout.decode() != tail(c.writer):
        raise Failed(f"get.py --once ended with {once.returncode}: {once.stderr.decode()}")


def are_mirrored(c):
    """Each reply of each mirror was true of the leader's list, and in no session n fell."""
    changes = [line.split(" ", 2)[2] for line in tail(c.writer).splitlines()]
    asked = 0
    for mirror in c.mirrors:
        if mirror.ended():
            raise Failed("a mirror has ended")
        replies = mirror.told()
        asked += judge(SCHEMA, changes, replies)
    print(f"cluster: {asked} replies of {len(c.mirrors)} mirrors over {len(changes)} changes are right")


def is_followed(c):
    events = [f"price={price} side={side}" for price in range(0, 1000, 97) for side in ("buy", "sell", "hold")] + ["-", "price={1,500} side={buy,sell}"]
    wanted = [c.writer.ask(f"PUB {event}") for event in events]
    asked = "".join(f"PUB {event}\n" for event in events) + "QUIT\n"
    given = subprocess.run([c.program, "follow", SCHEMA, c.room / "feed"], input=asked.encode(), capture_output=True, check=False)
    if given.returncode or given.stdout.decode().split("\n") != [*wanted, f"BYE {c.length()}", ""]:
        raise Failed(f"the follower ended with {given.returncode}: {given.stderr.decode()}")


def is_another_list(c):
    """A leader that was started anew has another list, which is told apart on both sides."""
    c.kill(c.leader)
    c.start_leader()
    c.writer.subscribe("other", "all")
    c.relay.target = c.port
    wait_until("tell.py sees another list", lambda: c.teller.poll() == 3)
    _, putter = c.start_telling(c.port)
    wait_until("put.py sees another list", lambda: putter.poll() == 3)


class Fed:
    """A mirror that has what is written to it."""

    def __init__(self, c, lines):
        def words(port):
            return [c.program, "mirror", str(SCHEMA), str(port), "3", "1000000"]

        self.process, self.port = ports.serving(words, stdin=subprocess.PIPE, stdout=subprocess.DEVNULL, stderr=subprocess.DEVNULL)
        c.started.append(self.process)
        self.length = 0
        self.feed(lines)

    def feed(self, lines):
        self.process.stdin.write(b"".join(lines))
        self.process.stdin.flush()
        self.length += len(lines)
        with Connection(self.port, within=PATIENCE) as session:
            session.publish("-", at_least=self.length, within=PATIENCE)


def waits_for_a_mirror(c):
    """tell.py at a mirror that is started anew waits until it has again what was printed, and ends with 3 at another change."""
    lines = [f"AT {place} SUB 1 {place} s{place} all\n".encode() for place in range(1500)]
    told, said = c.room / "told", c.room / "waiting"
    mirror = Fed(c, lines[:1200])
    relay = Relay(mirror.port)

    def has_told(count):
        return [line for line in told.read_bytes().splitlines(True) if line.startswith(b"AT ")] == lines[:count]

    def starts_anew(some):
        nonlocal mirror
        c.kill(mirror.process)
        mirror = Fed(c, some)
        relay.target = mirror.port

    with open(told, "wb") as out, open(said, "wb") as err:
        teller = c.start(sys.executable, CLUSTER / "tell.py", relay.port, stdout=out, stderr=err)
    try:
        wait_until("tell.py prints what a mirror has", lambda: has_told(1200))
        starts_anew([])
        wait_until("tell.py waits for a mirror", lambda: b"the list has 0 changes, and 1200 were printed: waiting" in said.read_bytes())
        for more in (lines[:1], lines[1:1100], lines[1100:1200]):
            mirror.feed(more)
            time.sleep(0.3)
            if teller.poll() is not None or not has_told(1200):
                raise Failed(f"tell.py at {mirror.length} changes: {teller.poll()}")
        mirror.feed(lines[1200:])
        wait_until("tell.py goes on", lambda: has_told(1500))
        if said.read_bytes().count(b"waiting") != 1:
            raise Failed(f"tell.py said {said.read_bytes()!r}")
        # all but the last of these changes were printed
        starts_anew([*lines[:700], b"AT 700 SUB 1 700 other all\n"])
        wait_until("tell.py sees another change", lambda: teller.poll() == 3)
        if b"its change at place 700 isn't" not in said.read_bytes() or not has_told(1500):
            raise Failed(f"tell.py said {said.read_bytes()!r}")
    finally:
        relay.stop()


def needs_an_answer(c):
    """tell.py holds one connection open at the start and ends with 1 where it isn't answered, and later says what happened."""

    def tell(port):
        return c.start(sys.executable, CLUSTER / "tell.py", port, "--patience", "0.7", stdout=subprocess.PIPE, stderr=subprocess.PIPE)

    def ends(what, teller):
        rest, said = teller.communicate(timeout=PATIENCE)
        if teller.returncode != 1 or rest or b"no answer in 0.7 seconds" not in said:
            raise Failed(f"tell.py, {what}, ended with {teller.returncode} and {said!r}, and printed {rest!r}")

    with socket.create_server(("127.0.0.1", 0)) as door:
        ends("where nobody speaks", tell(door.getsockname()[1]))
        # one connection, and no other
        door.settimeout(0.1)
        door.accept()[0].close()
        with contextlib.suppress(TimeoutError):
            door.accept()[0].close()
            raise Failed("tell.py opened two connections")

    def words(port):
        return [c.program, "serve", str(SCHEMA), str(port), "1", "1000000"]

    leader, port = ports.serving(words, stdin=subprocess.DEVNULL, stdout=subprocess.DEVNULL)
    c.started.append(leader)
    holder = connected(port)
    holder.ask("TAIL 0 0")
    ends("where all seats are taken", tell(port))
    holder.close()
    with Connection(port, within=PATIENCE) as after:
        list_now = after.tail(0, 10)
    if len(list_now) != 2:
        raise Failed(f"tell.py without a seat left {list_now}")

    with socket.create_server(("127.0.0.1", 0)) as door:
        teller, said = tell(door.getsockname()[1]), b""
        first = door.accept()[0]
        first.recv(100)
        first.sendall(b"TAILED 0 0\n")
        first.close()
        # those behind it wait unanswered
        for wanted in (b"the connection was closed", b"no answer in 0.7 seconds"):
            said = teller.stderr.readline()
            if wanted not in said:
                raise Failed(f"tell.py said {said!r}")
        teller.kill()
        teller.communicate()


class Pair:
    """mirror.sh with a mirror, which has the list of the feed, and get.py, or tell.py at a port."""

    def __init__(self, c, *words, feeder="get.py"):
        self.port, self.feeder = ports.free_port(), feeder
        mirror = [c.program, "mirror", SCHEMA, self.port, 2, 1000000]
        with open(c.room / "said", "a", encoding="utf-8") as said:
            pipes = {"stdin": subprocess.DEVNULL, "stdout": subprocess.DEVNULL, "stderr": said}
            self.process = c.start(CLUSTER / "mirror.sh", *words, "--", *mirror, env={**os.environ, "FEEDER": feeder}, **pipes)
        c.pairs.append(self)

    def length(self):
        with contextlib.suppress(OSError, Ended), Connection(self.port, within=PATIENCE) as session:
            return int(session.ask("TAIL 0 0").split(" ")[1])
        return 0

    def parts(self):
        """The process ids of what feeds it and of the mirror."""
        children = pathlib.Path(f"/proc/{self.process.pid}/task/{self.process.pid}/children").read_text(encoding="ascii").split()
        of_get = [child for child in children if self.feeder.encode() in pathlib.Path(f"/proc/{child}/cmdline").read_bytes()]
        if len(children) != 2 or len(of_get) != 1:
            raise Failed(f"mirror.sh has other parts than two: {children}")
        return [int(child) for child in sorted(children, key=lambda child: child not in of_get)]


def ends_as_one(c):
    """mirror.sh ends when what feeds the mirror does, or the mirror, or by a signal, and leaves neither behind."""
    away = Pair(c, "feed", "--redis", f"redis://127.0.0.1:{ports.free_port()}", "--patience", "0.2")
    pairs = [Pair(c, "feed", "--redis", c.url) for _ in range(4)] + [Pair(c, c.mirrors[0].port, feeder="tell.py") for _ in range(2)]
    wait_until("mirror.sh ends where Redis isn't there", lambda: away.process.poll() == 1)
    for pair in pairs:
        wait_until("mirror.sh has a mirror with a list", lambda pair=pair: pair.length() > 0)
    parts = [pair.parts() for pair in pairs]
    os.kill(parts[0][0], signal.SIGKILL)
    os.kill(parts[1][1], signal.SIGKILL)
    pairs[2].process.send_signal(signal.SIGTERM)
    pairs[3].process.send_signal(signal.SIGINT)
    os.kill(parts[4][0], signal.SIGKILL)
    os.kill(parts[5][1], signal.SIGKILL)
    whats = ("get.py is killed", "the mirror is killed", "it gets SIGTERM", "it gets SIGINT", "tell.py is killed", "the mirror of tell.py is killed")
    for what, pair, wanted in zip(whats, pairs, (137, 137, -signal.SIGTERM, -signal.SIGINT, 137, 137)):
        wait_until(f"mirror.sh ends where {what}", lambda pair=pair: pair.process.poll() is not None)
        if pair.process.returncode != wanted:
            raise Failed(f"mirror.sh ended with {pair.process.returncode} where {what}")
    left = [part for pair in parts for part in pair if os.path.exists(f"/proc/{part}")]
    if left:
        raise Failed(f"mirror.sh left its parts behind: {left}")


def is_refilled(c):
    """get.py prints nothing of a list that came in the place of its own."""
    old, new = [b"AT 0 SUB 1 0 a all", b"AT 1 SUB 1 1 b all"], [b"AT 0 SUB 1 0 x all", b"AT 1 SUB 1 1 y all", b"AT 2 SUB 1 2 z all"]

    def fill(lines):
        with c.store.pipeline() as at_once:
            at_once.delete("refilled")
            for place, line in enumerate(lines):
                at_once.xadd("refilled", {"line": line}, id=f"{place + 1}-0")
            at_once.execute()

    for lines, told in ((new[:1], b"no longer has the change at place 1"), (new, b"has another change at place 1")):
        fill(old)
        get = c.start(sys.executable, CLUSTER / "get.py", "refilled", "--redis", c.url, stdout=subprocess.PIPE, stderr=subprocess.PIPE)
        given = [get.stdout.readline().rstrip(b"\n") for _ in old]
        fill(lines)
        rest, said = get.communicate(timeout=PATIENCE)
        if given != old or rest or get.returncode != 3 or told not in said:
            raise Failed(f"get.py ended with {get.returncode} and {said!r}, and printed {[*given, rest]!r}")


def has_no_stream(c):
    """get.py says that its stream isn't there, once, and waits or ends with `--once`."""
    once = subprocess.run([sys.executable, CLUSTER / "get.py", "late", "--redis", c.url, "--once"], capture_output=True, check=False)
    if once.returncode or once.stdout or once.stderr != b"get.py: there is no stream late, or nothing in it\n":
        raise Failed(f"get.py --once ended with {once.returncode} and {once.stderr!r}")
    get = c.start(sys.executable, CLUSTER / "get.py", "late", "--redis", c.url, "--beat", "0.1", stdout=subprocess.PIPE, stderr=subprocess.PIPE)
    said, beats = get.stderr.readline(), [get.stdout.readline() for _ in range(3)]
    c.store.xadd("late", {"line": b"AT 0 SUB 1 0 a all"}, id="1-0")
    while (line := get.stdout.readline()) == b"TAILED 0 0\n":
        pass
    get.kill()
    rest = get.communicate()[1]
    if (said, rest) != (b"get.py: there is no stream late, or nothing in it: waiting\n", b"") or line != b"AT 0 SUB 1 0 a all\n":
        raise Failed(f"get.py said {said + rest!r}, and printed {[*beats, line]}")


def beats_without_a_leader(c):
    """With --beat tell.py prints lines that say nothing while its leader is away too."""
    with socket.create_server(("127.0.0.1", 0)) as door:
        teller = c.start(sys.executable, CLUSTER / "tell.py", door.getsockname()[1], "--beat", "0.1", stdout=subprocess.PIPE, stderr=subprocess.PIPE)
        session, _ = door.accept()
        with session:
            session.recv(100)
            session.sendall(b"TAILED 0 0\n")
    beats = [teller.stdout.readline() for _ in range(3)]
    teller.kill()
    _, said = teller.communicate()
    if beats != [b"TAILED 0 0\n"] * 3 or b"no leader at port" not in said:
        raise Failed(f"tell.py printed {beats}, and said {said!r}")


def is_interrupted(c):
    """Ctrl-C ends the scripts by its signal, and without a word."""
    teller, putter = c.second
    # so that it doesn't see the end of the teller first
    putter.send_signal(signal.SIGSTOP)
    for process in (teller, putter, c.getter):
        process.send_signal(signal.SIGINT)
    putter.send_signal(signal.SIGCONT)
    for process in (teller, putter, c.getter):
        wait_until("Ctrl-C ends a script", lambda process=process: process.poll() == -signal.SIGINT)


def is_refused(c):
    """Words without a reading end with 2, an output that takes nothing with 1, and neither with a traceback."""
    stream = ["feed", "--redis", c.url, "--once"]
    for name, words, wanted in (("get.py", [*stream, "--place", "-1"], 2), ("get.py", [*stream, "--redis", "foo"], 2), ("get.py", stream, 1), ("tell.py", ["0"], 2), ("tell.py", [str(c.port)], 1)):
        with open("/dev/full", "wb") as full:
            ended = subprocess.run([sys.executable, CLUSTER / name, *words], stdout=full, stderr=subprocess.PIPE, check=False)
        if ended.returncode != wanted or b"Traceback" in ended.stderr:
            raise Failed(f"{name} {words} ended with {ended.returncode}: {ended.stderr.decode()}")


def is_away(c):
    """Nothing is there at the start."""
    port = str(ports.free_port())
    stream = ["feed", "--redis", f"redis://127.0.0.1:{port}"]
    for name, words in (("tell.py", [port]), ("put.py", stream), ("get.py", stream)):
        ended = subprocess.run([sys.executable, CLUSTER / name, *words, "--patience", "0.2"], stdin=subprocess.DEVNULL, capture_output=True, check=False)
        if ended.returncode != 1 or b": no " not in ended.stderr or ended.stdout:
            raise Failed(f"{name} ended with {ended.returncode}: {ended.stderr.decode()}")
    if b"Traceback" in (c.room / "said").read_bytes():
        raise Failed("a script ended with a traceback")


CASES = [all_parts_run, outlives_put, outlives_tell, outlives_get, outlives_redis, outlives_mirrors, outlives_connection, has_two_tellers, is_the_leaders, are_mirrored, is_followed, ends_as_one, is_refilled, has_no_stream, waits_for_a_mirror, needs_an_answer, beats_without_a_leader, is_interrupted, is_refused, is_another_list, is_away]


def main(program, room):
    # whoever started this may ignore it, and so would what is started here
    signal.signal(signal.SIGINT, signal.default_int_handler)
    passed, cluster = 0, Cluster(program, room)
    try:
        cluster.start_redis()
        cluster.start_replica()
        cluster.start_leader()
        for case in CASES:
            case(cluster)
            passed += 1
    except (Failed, Illegal, OSError) as fault:
        print(f"FAILED: the example of a cluster: {CASES[passed].__name__}: {fault}")
        with contextlib.suppress(OSError):
            print((pathlib.Path(room) / "said").read_text(encoding="utf-8")[-2000:])
        print(f"{passed} passed, 1 failed")
        return 1
    finally:
        cluster.stop()
    print(f"{passed} passed, 0 failed")
    return 0


if __name__ == "__main__":
    sys.exit(main(*sys.argv[1:]))
