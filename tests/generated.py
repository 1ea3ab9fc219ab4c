#!/usr/bin/env python3
"""Compares `gen` with `run` over the same script: the workload is drawn here once more, from what docs/use/protocol.md says
of it, its script is given to `run`, and the numbers of the replies HIT and COST are summed up. The same numbers at each
run. Its words: the program, and how many workloads."""
import random
import subprocess
import sys
import tempfile

SCHEMA = "".join(f"int a{i} 0 999\n" for i in range(10))
MASK = (1 << 64) - 1


class Dice:
    """SplitMix64."""

    def __init__(self, number):
        self.state = number

    def draw(self, below):
        self.state = (self.state + 0x9E3779B97F4A7C15) & MASK
        z = self.state
        z = ((z ^ (z >> 30)) * 0xBF58476D1CE4E5B9) & MASK
        z = ((z ^ (z >> 27)) * 0x94D049BB133111EB) & MASK
        return (z ^ (z >> 31)) % below


def predicate(dice):
    attr, kind = f"a{dice.draw(10)}", dice.draw(5)
    x = dice.draw(1000)
    if kind == 1:
        return f"{attr} between {x} and {min(999, x + dice.draw(50))}"
    if kind == 4:
        return f"{attr} in {{{x},{dice.draw(1000)},{dice.draw(1000)}}}"
    return f"{attr} {['=', '', '<=', '>='][kind]} {x}"


def script(number, subs, events):
    dice = Dice(number)
    for i in range(subs):
        count = 1 + dice.draw(4)
        yield f"SUB s{i} " + " and ".join(predicate(dice) for _ in range(count))
    for _ in range(events):
        items = [f"a{i}={dice.draw(1000)}" for i in range(10) if dice.draw(10) < 8]
        event = " ".join(items) or "-"
        yield f"PUB {event}"
        yield f"COST {event}"


def sums(program, number, subs, events):
    """The line that is to be printed, from the replies of `run`."""
    with tempfile.NamedTemporaryFile("w") as schema:
        schema.write(SCHEMA)
        schema.flush()
        lines = "".join(line + "\n" for line in script(number, subs, events))
        ran = subprocess.run([program, "run", schema.name], input=lines, capture_output=True, text=True, check=True)
    hits = visits = tested = 0
    replies = ran.stdout.splitlines()
    assert len(replies) == subs + 2 * events
    for reply in replies:
        words = reply.split()
        if words[0] == "HIT":
            hits += int(words[2])
        elif words[0] == "COST":
            visits += int(words[2])
            tested += int(words[3])
        else:
            assert words[0] == "OK", reply
    return f"GEN {subs} {events} {hits} {visits} {tested}\n"


def main():
    program, count = sys.argv[1], int(sys.argv[2])
    chance = random.Random(20)
    workloads = [(7, 0, 0), (7, 1000, 200), (42, 5000, 100), ((1 << 63) - 1, 17, 40), (0, 0, 30), (3055572, 20, 1)]
    while len(workloads) < count:
        workloads.append((chance.randrange(1 << 63), chance.randrange(3000), chance.randrange(200)))
    for number, subs, events in workloads[:count]:
        words = [program, "gen", str(number), str(subs), str(events)]
        printed = subprocess.run(words, capture_output=True, text=True, check=True).stdout
        wanted = sums(program, number, subs, events)
        if printed != wanted:
            sys.exit(f"FAILED: {' '.join(words[1:])}: printed {printed!r}, and not {wanted!r}")
    print(f"{count} workloads: gen prints the sums of run")


main()
