#!/usr/bin/env python3
"""Runs one script within limits on memory, from where a third of its subscriptions find none to where all do, and judges each reply.

usage: limits.py PROGRAM SCHEMA    (a schema with `int price`)

Whatever was refused, a line has one reply, and each HIT names exactly the subscriptions that were accepted and not removed, in their
order. So it doesn't matter where the names that a copy keeps one behind another were given up. Its last line is `N passed, N failed`.
"""
import resource
import subprocess
import sys

LIMITS = range(8400, 12400, 200)  # KiB of address space


def script():
    for i in range(20000):
        yield f"SUB s{i} price >= {i % 1000}"
        if i % 7 == 3:
            yield f"UNSUB s{i - 2}"
        if i % 2000 == 1999:
            yield "PUB price=5"


def fault(lines, replies):
    """What is wrong with the replies, or None; and how many lines found no memory."""
    if len(replies) != len(lines):
        return f"{len(replies)} replies to {len(lines)} lines", 0
    live, changes, refused = {}, 0, 0
    for line, reply in zip(lines, replies):
        words = line.split()
        if reply == "NOMEM":
            refused += 1
            continue
        if words[0] == "PUB":
            names = [name for name, price in live.items() if price <= 5]
            wanted = " ".join(["HIT", str(changes), str(len(names)), *names])
        elif words[0] == "UNSUB" and words[1] not in live:
            wanted = f"NONE {changes}"
        else:
            changes += 1
            wanted = f"OK {changes}"
            if words[0] == "SUB":
                live[words[1]] = int(words[4])
            else:
                del live[words[1]]
        if reply != wanted:
            return f"{line}: {reply[:60]} for {wanted[:60]}", refused
    return None, refused


def main(program, schema):
    lines = list(script())
    given = ("\n".join(lines) + "\n").encode()
    passed = failed = wanting = 0
    for limit in LIMITS:
        run = subprocess.run(
            [program, "run", schema], input=given, stdout=subprocess.PIPE, stderr=subprocess.DEVNULL,
            preexec_fn=lambda: resource.setrlimit(resource.RLIMIT_AS, (limit * 1024, limit * 1024)),
        )
        wrong, refused = fault(lines, run.stdout.decode().splitlines()) if run.returncode == 0 else (f"code {run.returncode}", 0)
        wanting += refused > 0
        if wrong:
            print(f"FAILED: {limit} KiB: {wrong}")
            failed += 1
        else:
            passed += 1
    if wanting == 0:
        print("FAILED: memory was wanting within no limit")
        failed += 1
    print(f"{passed} passed, {failed} failed")
    return failed > 0


if __name__ == "__main__":
    sys.exit(main(sys.argv[1], sys.argv[2]))
