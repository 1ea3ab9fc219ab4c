"""What bench/cluster.sh measures. Its words: the program, and a folder with schema.txt, subs.txt and events.txt. Prints lines
`WHAT|FIGURE`."""
import os
import pathlib
import statistics
import subprocess
import sys
import time

sys.dont_write_bytecode = True
TOP = pathlib.Path(__file__).resolve().parent.parent
CLUSTER = TOP / "examples" / "cluster"
sys.path[1:1] = [str(TOP / "tests"), str(TOP / "examples" / "client")]
import ports  # noqa: E402
from justmeadow import Connection  # noqa: E402

TICKS = os.sysconf("SC_CLK_TCK")
program, room = sys.argv[1], pathlib.Path(sys.argv[2])
started = []


def start(*words, **pipes):
    process = subprocess.Popen([str(word) for word in words], **pipes)
    started.append(process)
    return process


def serving(command, source):
    def words(port):
        return [program, command, str(room / "schema.txt"), str(port), "4", "1000000"]

    process, port = ports.serving(words, stdin=source, stdout=subprocess.DEVNULL)
    started.append(process)
    return process, port


def mirror(url):
    getter = start(sys.executable, CLUSTER / "get.py", "feed", "--redis", url, stdout=subprocess.PIPE)
    served = serving("mirror", getter.stdout)
    getter.stdout.close()
    return served


def processor_seconds(process):
    fields = pathlib.Path(f"/proc/{process.pid}/stat").read_text(encoding="ascii").rpartition(")")[2].split()
    return (int(fields[11]) + int(fields[12])) / TICKS


def wait_until(holds):
    until = time.monotonic() + 60
    while not holds():
        if time.monotonic() > until:
            sys.exit("cluster.py: a mirror lags for over a minute")
        time.sleep(0.005)


def length(port):
    with Connection(port) as session:
        return int(session.ask("TAIL 0 0").split(" ")[1])


def rate(servers, lines):
    """Events a second of these servers together, each of which a client asks in bulk, and how many processors they took."""
    before = [processor_seconds(process) for process, _ in servers]
    began = time.monotonic()
    clients = [start(room / "client", "bulk", port, room / "events.txt", process.pid, stdout=subprocess.DEVNULL) for process, port in servers]
    if any(client.wait() for client in clients):
        sys.exit("cluster.py: a client failed")
    took = time.monotonic() - began
    spent = sum(processor_seconds(process) - was for (process, _), was in zip(servers, before))
    return len(servers) * lines / took, spent / took


def lag(writer, reader):
    """From an OK until the mirror's n has the change, in milliseconds."""
    n = writer.subscribe("late", "all")
    began = time.perf_counter()
    while int(reader.ask("TAIL 0 0").split(" ")[1]) < n:
        pass
    took = time.perf_counter() - began
    writer.unsubscribe("late")
    time.sleep(0.02)
    return 1000 * took


def main():
    port = ports.free_port()
    url = f"redis://127.0.0.1:{port}"
    start("redis-server", "--port", port, "--bind", "127.0.0.1", "--dir", room, "--save", "", "--appendonly", "no", stdout=subprocess.DEVNULL)
    wait_until(lambda: subprocess.run(["redis-cli", "-p", str(port), "ping"], capture_output=True, check=False).returncode == 0)
    leader = serving("serve", subprocess.DEVNULL)
    teller = start(sys.executable, CLUSTER / "tell.py", leader[1], stdout=subprocess.PIPE)
    start(sys.executable, CLUSTER / "put.py", "feed", "--redis", url, stdin=teller.stdout)
    writer = Connection(leader[1])
    conditions = (room / "subs.txt").read_text(encoding="ascii").splitlines()
    list(writer.ask_all(conditions))
    mirrors = [mirror(url) for _ in range(3)]
    wait_until(lambda: all(length(port) >= len(conditions) for _, port in mirrors))
    lines = (room / "events.txt").read_bytes().count(b"\n")
    found = []
    for count in range(4):
        found.append(max(rate([leader, *mirrors[:count]], lines) for _ in range(3)))
    for count, (events, processors) in enumerate(found):
        beside = "alone" if not count else f"and {count} mirror{'s' * (count > 1)} beside it"
        times = "" if not count else f", {events / found[0][0]:.2f} times those of the leader alone"
        print(f"events a second of a leader {beside}, in bulk over a connection each, with {len(conditions):,} subscriptions|{events:,.0f}{times}; {processors:.1f} processors")
    with Connection(mirrors[0][1]) as reader:
        lags = sorted(lag(writer, reader) for _ in range(100))
    print(f"from a leader's OK until a mirror's n has the change, of 100, through Redis|median {statistics.median(lags):.1f} ms, 99th percentile {lags[98]:.1f} ms")


try:
    main()
finally:
    for process in started:
        process.kill()
        process.wait()
