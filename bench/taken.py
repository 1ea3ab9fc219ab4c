"""How long a mirror takes to have all changes of a feed in a file, with a thousand events a second beside, for bench/follow.sh. Its
words: the program, the schema, the feed, and how many changes it has. Prints the elapsed seconds, the processor seconds, and the most
memory in KiB."""
import os
import pathlib
import subprocess
import sys
import threading
import time

sys.dont_write_bytecode = True
TOP = pathlib.Path(__file__).resolve().parent.parent
sys.path[1:1] = [str(TOP / "tests"), str(TOP / "examples" / "client")]
import ports  # noqa: E402
from justmeadow import Connection  # noqa: E402

program, schema, feed, changes = sys.argv[1:]
TICKS = os.sysconf("SC_CLK_TCK")


def events(port, is_over):
    """A thousand events a second, over one connection."""
    with Connection(port) as session:
        due = time.monotonic()
        while not is_over.is_set():
            session.ask("PUB price=1000")
            due += 0.001
            time.sleep(max(0, due - time.monotonic()))


def main():
    is_over, (read, write) = threading.Event(), os.pipe()
    process, port = ports.serving(lambda port: [program, "mirror", schema, str(port), "2", "2"], stdin=read, stdout=subprocess.DEVNULL)
    os.close(read)
    asking = threading.Thread(target=events, args=(port, is_over))
    asking.start()
    with open(feed, "rb") as source, open(write, "wb", buffering=0) as target:
        began = time.monotonic()
        sending = threading.Thread(target=lambda: [target.write(piece) for piece in iter(lambda: source.read(65536), b"")])
        sending.start()
        with Connection(port) as session:
            while int(session.ask("TAIL 0 0").split(" ")[1]) < int(changes):
                if process.poll() is not None or time.monotonic() > began + 60:
                    sys.exit("taken.py: the mirror doesn't get there within a minute")
                time.sleep(0.002)
            took = time.monotonic() - began
            fields = pathlib.Path(f"/proc/{process.pid}/stat").read_text(encoding="ascii").rpartition(")")[2].split()
            most = next(line.split()[1] for line in pathlib.Path(f"/proc/{process.pid}/status").read_text(encoding="ascii").splitlines() if line.startswith("VmHWM"))
            is_over.set()
            asking.join()
        sending.join()
    process.wait()
    print(f"{took:.3f} {(int(fields[11]) + int(fields[12])) / TICKS:.2f} {most}")


main()
