"""Starts a program that serves a port of 127.0.0.1: a part of tests/serve.py and tests/clients.py."""
import contextlib
import os
import random
import socket
import subprocess
import time

WAIT = 60  # seconds until it listens
TRIES = 20  # ports


def free_port():
    """A port below those that the system gives out, so that no connection of another test takes it before the server does. That
    another server takes it first can't be excluded."""
    while True:
        port = random.randrange(16384, 32768)
        with contextlib.suppress(OSError), socket.socket() as probe:
            probe.setsockopt(socket.SOL_SOCKET, socket.SO_REUSEADDR, 1)
            probe.bind(("127.0.0.1", port))
            return port


def listens(process, port):
    """Whether it is this very process that listens at the port, as Linux tells."""
    of_process = set()
    with contextlib.suppress(OSError):
        for number in os.listdir(f"/proc/{process.pid}/fd"):
            with contextlib.suppress(OSError):
                of_process.add(os.readlink(f"/proc/{process.pid}/fd/{number}"))
    with open("/proc/net/tcp", encoding="ascii") as table:
        for line in table:
            fields = line.split()
            if fields[1] == f"0100007F:{port:04X}" and fields[3] == "0A" and f"socket:[{fields[9]}]" in of_process:
                return True
    return False


def is_up(process, port):
    """Waits until it listens, and says whether it does: it has ended where somebody else has the port."""
    until = time.monotonic() + WAIT
    while process.poll() is None:
        if listens(process, port):
            return True
        if time.monotonic() > until:
            raise TimeoutError(f"nothing listens at port {port}")
        time.sleep(0.002)
    return False


def serving(words_for, **options):
    """A process, by the words for a port, and the port at which it listens. Another port is tried where it ends before that."""
    for _ in range(TRIES):
        port = free_port()
        process = subprocess.Popen(words_for(port), **options)
        if is_up(process, port):
            return process, port
        process.communicate()
    raise OSError(f"a server ended {TRIES} times before it listened: {words_for(0)}")
