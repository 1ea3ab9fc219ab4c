"""How soon clients that wait are told, for bench/waits.sh. Its words: the program, the schema, how many rounds, how many waiting
sessions, and for how many seconds these are watched. Prints a figure a line, `WHAT|FIGURE`. The times are of this process's clock,
and its own work between the two ends counts."""
import os
import pathlib
import sys
import time

sys.dont_write_bytecode = True
sys.path.insert(0, str(pathlib.Path(__file__).resolve().parent.parent / "tests"))
from network import Link, Server  # noqa: E402

program, schema, rounds, waiters, seconds = sys.argv[1], sys.argv[2], int(sys.argv[3]), int(sys.argv[4]), float(sys.argv[5])
TICKS = os.sysconf("SC_CLK_TCK")
LONG = 60_000  # milliseconds
PAUSE = 0.001  # seconds, so that the other session waits by then


def told(times):
    """The median and the 99th percentile, in microseconds."""
    times = sorted(1e6 * each for each in times)
    return f"median {times[len(times) // 2]:.0f} µs, 99th percentile {times[len(times) * 99 // 100]:.0f} µs"


def measured(waiting, line, other, asked, is_right):
    """How long it takes from sending what the other one asks until the waiting one has its reply, round by round."""
    times = []
    for number in range(rounds):
        waiting.send(line(number).encode() + b"\n")
        time.sleep(PAUSE)
        began = time.perf_counter()
        other.send(asked(number).encode() + b"\n")
        reply = waiting.reply()
        times.append(time.perf_counter() - began)
        other.reply()
        if not is_right(number, reply):
            sys.exit(f"waits.py: another reply than was waited for: {reply}")
    return times


def waking():
    server = Server(program, schema, 2, 2)
    try:
        waiting, other = Link(server), Link(server)
        waiting.asked("SUB a all")
        times = measured(waiting, lambda _: f"FETCH 1 {LONG}", other, lambda _: "SEND -", lambda _, reply: reply[-1] == "END 1")
        print(f"from a SEND of one session until another one that waits in FETCH has its letter|{told(times)}")
        times = measured(
            waiting, lambda number: f"TAIL {number + 1} 1 {LONG}", other, lambda number: f"SUB b{number} all", lambda number, reply: reply[-1] == f"TAILED {number + 2} 1"
        )
        print(f"from a SUB of one session until another one that waits in TAIL has the change|{told(times)}")
    finally:
        server.kill()


def watching():
    server = Server(program, schema, waiters, waiters)
    try:
        links = [Link(server) for _ in range(waiters)]
        for link in links:
            link.asked("PUB -")
            link.send(b"FETCH 1 %d\n" % LONG)
        time.sleep(0.5)
        before = server.ticks()
        time.sleep(seconds)
        spent = server.ticks() - before
        if not all(link.is_quiet(0) for link in links):
            sys.exit("waits.py: a session doesn't wait")
        print(f"processor time of `serve` with {waiters} sessions that wait in FETCH, in {seconds:g} s|{spent / TICKS:.2f} s")
    finally:
        server.kill()


waking()
watching()
