#!/usr/bin/env python3
"""Takes the descriptors of a server away for a second and gives them back. Meanwhile no link is used up, the server waits without
spinning, and then it serves each client. Its one word is the program. It takes at most ten seconds, and ends with 1 where
something differs."""
import os
import resource
import select
import signal
import sys
import tempfile
import time

sys.dont_write_bytecode = True
from changes import Illegal
from network import Server, log_of

BOUND = 10
SEATS, LINKS = 2, 8
passed, failed = 0, 0


def holds(what, is_so, shown=""):
    global passed, failed
    if is_so:
        passed += 1
    else:
        failed += 1
        print(f"FAILED: descriptors: {what}: {shown}")


def descriptors(server):
    """How many it has open. They are the lowest, since it closed none."""
    return len(os.listdir(f"/proc/{server.process.pid}/fd"))


def limit(server, most):
    """Lets it open only descriptors below this number, and gives the number of before."""
    hard = resource.prlimit(server.process.pid, resource.RLIMIT_NOFILE)[1]
    return resource.prlimit(server.process.pid, resource.RLIMIT_NOFILE, (most, hard))[0]


def takes_away(server):
    """While it may open no descriptor all its workers look for a link, and a client waits. Gives the clients."""
    first, second = server.client(), server.client()
    holds("a first client is served", first.ask("SUB first all") == "OK 1")
    holds("a second client is served", second.ask("SUB second all") == "OK 2")
    before = limit(server, descriptors(server) - 2)
    first.finish()
    second.finish()
    waiting = server.client()
    waiting.send(b"PUB -\n")
    ticks = server.ticks()
    time.sleep(1)
    spent = server.ticks() - ticks
    holds("the server goes on while it has no descriptors", server.process.poll() is None, server.process.poll())
    holds("a server without descriptors takes little processor time", spent < 20, f"{spent} hundredths of a second in a second")
    holds("a client waits for a descriptor", not select.select([waiting.socket], [], [], 0)[0])
    limit(server, before)
    return waiting


def serves(server):
    waiting = takes_away(server)
    holds("the client that waited is served", waiting.line() == "HIT 4 0", waiting.came)
    waiting.finish()
    for number in range(4, LINKS + 1):
        client = server.client()
        holds(f"client {number} is served", client.ask(f"SUB name{number} all").startswith("OK "), client.came)
        client.finish()
    code, out, err = server.end()
    holds("the server ends well", (code, err) == (0, b""), (code, err))
    holds("each link is served", log_of(out)[1] == LINKS, out)


def too_late(_signal, _frame):
    raise TimeoutError(f"not done in {BOUND} seconds")


def main():
    signal.signal(signal.SIGALRM, too_late)
    signal.alarm(BOUND)
    with tempfile.TemporaryDirectory() as room:
        schema = os.path.join(room, "schema.txt")
        with open(schema, "w", encoding="ascii") as file:
            file.write("int price 0 1000\n")
        server = Server(sys.argv[1], schema, SEATS, LINKS)
        try:
            serves(server)
        except (OSError, EOFError, Illegal) as why:
            holds("nothing breaks off", False, repr(why))
        finally:
            server.process.kill()
            server.process.wait()
    print(f"{passed} passed, {failed} failed")
    sys.exit(1 if failed else 0)


if __name__ == "__main__":
    main()
