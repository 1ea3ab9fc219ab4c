#!/usr/bin/env python3
"""Compares `cover` with a plain program that tries every event of single values of a small schema: random conditions of
every operator, each asked against all others, 3,080 pairs. Of each pair the line has to be the one that
docs/use/matching.md names, byte for byte. The same pairs at each run. Its word: the program."""
import itertools
import random
import subprocess
import sys
import tempfile

SCHEMA = "int a 0 5\nint b -2 2\nsym c x y z\nint d 7 7\n"
DOMAINS = {"a": range(0, 6), "b": range(-2, 3), "c": ["x", "y", "z"], "d": [7]}
ROWS = 56
KINDS = ["<", "<=", "=", "!=", ">=", ">", "between", "in", "not in"]


def place(attr, value):
    """A value's number: that of a symbol is its place."""
    return DOMAINS[attr].index(value) if attr == "c" else value


def predicate(dice):
    attr = dice.choice("abbccd" if dice.random() < 0.3 else "aab")
    kind = dice.choice(KINDS)
    count = {"between": 2, "in": dice.randint(1, 4), "not in": dice.randint(1, 4)}.get(kind, 1)
    return attr, kind, [dice.choice(list(DOMAINS[attr])) for _ in range(count)]


def text(condition):
    words = []
    for attr, kind, values in condition:
        if kind == "between":
            words.append(f"{attr} between {values[0]} and {values[1]}")
        elif kind in ("in", "not in"):
            words.append(f"{attr} {kind} {{{','.join(map(str, values))}}}")
        else:
            words.append(f"{attr} {kind} {values[0]}")
    return " and ".join(words) or "all"


def holds(attr, kind, values, value):
    v, xs = place(attr, value), [place(attr, x) for x in values]
    x = xs[0]
    return {
        "<": v < x, "<=": v <= x, "=": v == x, "!=": v != x, ">=": v >= x, ">": v > x,
        "between": x <= v <= xs[-1], "in": v in xs, "not in": v not in xs,
    }[kind]


def satisfies(event, condition):
    return all(p[0] in event and holds(*p, event[p[0]]) for p in condition)


def events():
    names = list(DOMAINS)
    for values in itertools.product(*([None, *DOMAINS[name]] for name in names)):
        yield {name: value for name, value in zip(names, values) if value is not None}


def allowed(condition, attr):
    return [v for v in DOMAINS[attr] if all(holds(*p, v) for p in condition if p[0] == attr)]


def apart(first, other):
    """The event that the rule names, of which it is known that there is one."""
    mine, its = {p[0] for p in first}, {p[0] for p in other}
    event = {attr: allowed(first, attr)[0] for attr in DOMAINS if attr in mine}
    for attr in DOMAINS:
        if attr in its and attr not in mine:
            return event
        left = [v for v in allowed(first, attr) if v not in allowed(other, attr)]
        if attr in its and left:
            event[attr] = left[0]
            return event
    raise AssertionError("nothing tells them apart")


def main():
    program = sys.argv[1]
    dice = random.Random(19)
    every = list(events())
    rows = {f"r{i}": [predicate(dice) for _ in range(dice.randint(0, 4))] for i in range(ROWS)}
    satisfied = {name: [satisfies(e, c) for e in every] for name, c in rows.items()}
    covers = 0
    with tempfile.TemporaryDirectory() as room:
        with open(f"{room}/schema", "w") as file:
            file.write(SCHEMA)
        with open(f"{room}/rows", "w") as file:
            file.writelines(f"ROW {name} {text(c)}\n" for name, c in rows.items())
        for asked, first in rows.items():
            wanted = []
            for name, other in rows.items():
                if name == asked:
                    continue
                if all(s for q, s in zip(satisfied[asked], satisfied[name]) if q):
                    wanted.append(f"COVER {name}")
                    covers += 1
                else:
                    event = apart(first, other)
                    assert satisfies(event, first) and not satisfies(event, other)
                    items = " ".join(f"{attr}={value}" for attr, value in event.items())
                    wanted.append(f"NOT {name} {items or '-'}")
            ran = subprocess.run([program, "cover", f"{room}/schema", f"{room}/rows", asked], capture_output=True, text=True)
            if ran.returncode != 0 or ran.stdout.splitlines() != wanted:
                sys.exit(f"FAILED: {asked} {text(first)}: {ran.returncode} {ran.stderr}\n{ran.stdout}\nwanted\n" + "\n".join(wanted))
    print(f"{ROWS * (ROWS - 1)} pairs, of which {covers} are covered, are as a trial of all events says")


main()
