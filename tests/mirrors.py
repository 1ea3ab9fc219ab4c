"""Mirrors that are fed by a process and asked all the time, and the judge of what they answered: a part of tests/cluster.py."""
import contextlib
import os
import pathlib
import random
import subprocess
import sys
import threading

sys.dont_write_bytecode = True
import legal
import model
import ports
from changes import History, Stand, require, schema_of

sys.path.insert(0, os.path.join(os.path.dirname(os.path.dirname(os.path.abspath(__file__))), "examples", "client"))
from justmeadow import Connection, Ended, Refused  # noqa: E402

EVENTS = [f"price={price} side={side}" for price in range(0, 1000, 89) for side in ("buy", "sell", "hold")] + ["-", "price=500", "price={1,500} side={buy,sell}"]


class Mirror:
    """`mirror`, with a process that prints its feed, and a client beside that asks for one event after another."""

    def __init__(self, program, schema, feeding, said):
        self.program, self.schema, self.feeding, self.said = program, schema, [str(word) for word in feeding], said
        self.sessions = []
        self.start()

    def start(self):
        with open(self.said, "a", encoding="utf-8") as said:
            self.feeder = subprocess.Popen(self.feeding, stdout=subprocess.PIPE, stderr=said)
            words = lambda port: [str(self.program), "mirror", str(self.schema), str(port), "4", "1000000"]  # noqa: E731
            self.process, self.port = ports.serving(words, stdin=self.feeder.stdout, stdout=subprocess.DEVNULL, stderr=said)
        # the mirror alone reads it
        self.feeder.stdout.close()
        self.is_over = threading.Event()
        self.asker = threading.Thread(target=self.ask, args=(self.is_over, self.port), daemon=True)
        self.asker.start()

    def ask(self, is_over, port):
        """Sessions, one after another, each of which asks for some events; and what each of them was told."""
        pick = random.Random(port)
        with contextlib.suppress(OSError, Ended):
            while not is_over.is_set():
                told = []
                self.sessions.append(told)
                with Connection(port) as session:
                    for _ in range(pick.randint(1, 400)):
                        event = pick.choice(EVENTS)
                        with contextlib.suppress(Refused):
                            names = session.publish(event)
                            told.append((names.n, event, list(names)))
                        if is_over.wait(0.001):
                            break

    def length(self):
        """How many changes it has, or none where it isn't there."""
        with contextlib.suppress(OSError, Ended), Connection(self.port) as session:
            return int(session.ask("TAIL 0 0").split(" ")[1])
        return -1

    def ended(self):
        return self.process.poll() is not None

    def told(self):
        """Stops asking, and gives what each session was told."""
        self.is_over.set()
        self.asker.join()
        return self.sessions

    def kill(self):
        for process in (self.process, self.feeder):
            process.kill()
            process.wait()
        self.is_over.set()
        self.asker.join()

    def stop(self):
        self.is_over.set()
        for process in (self.process, self.feeder):
            if process.poll() is None:
                process.kill()
            process.wait()


def judge(schema, changes, sessions):
    """How many replies there were, each of which was true of the list."""
    model.SCHEMA[:] = schema_of(pathlib.Path(schema).read_text(encoding="ascii"))
    history, asked = History(changes, [], max(int(change.split(" ")[1]) for change in changes)), 0
    events = {event: legal.event_in(model.Reader(model.tokens(event))) for event in EVENTS}
    right = {}
    for told in sessions:
        seen = 0
        for n, event, names in told:
            require(seen <= n <= len(changes), f"{n} changes were told after {seen}")
            seen = n
            right.setdefault(n, []).append((event, names))
            asked += 1
    # each length once, from the least on
    stand = Stand(history)
    for n in sorted(right):
        stand.forward(n)
        for event, names in right[n]:
            wanted = [row.name for row in stand.hits(events[event])]
            require(names == wanted, f"after {n} changes the event {event} is told", " ".join(names), "and not", " ".join(wanted))
    require(asked, "nothing was asked")
    return asked
