#!/usr/bin/env python3
"""Compares the program with a plain scan in Python where thousands of conditions stand in one leaf: conditions on one attribute and
on a second one beside it, put in, taken out and put in again between events of one value, of several and of none. Each reply is
compared, byte for byte. The same lines at each run. Its words: the program, and how many scripts."""
import random
import subprocess
import sys

sys.dont_write_bytecode = True
import model

TOP = 9999
WIDE = 2**31 - 1


def condition(pick, wide):
    """Mostly one predicate that no half of the domain takes, so that it stays in the leaf; of a wide domain numbers at its ends too."""
    if wide and pick.random() < 0.1:
        value = pick.choice([-WIDE - 1, -WIDE, WIDE - 2, WIDE - 1, WIDE])
        return [("a", pick.choice(["<", "<=", "=", ">=", ">"]), [value])]
    low, high = pick.randint(0, TOP // 2), pick.randint(TOP // 2 + 1, TOP)
    kind = pick.random()
    if kind < 0.25:
        found = [("a", pick.choice(["<=", "<"]), [high])]
    elif kind < 0.5:
        found = [("a", pick.choice([">=", ">"]), [low])]
    elif kind < 0.65:
        found = [("a", "between", [low, high])]
    elif kind < 0.85:
        found = [("a", "in", [low, pick.randint(low, high), high][pick.randint(0, 1) :])]
    elif kind < 0.9:
        found = [("a", "in", [low, high, *(pick.randint(low, high) for _ in range(4))])]
    elif kind < 0.95:
        found = [("a", ">=", [low]), ("a", "<=", [high])]
    else:
        found = [("a", pick.choice(["!=", "not in"]), [low])]
    if pick.random() < 0.1:
        found.append(("b", pick.choice(["<=", ">="]), [pick.randint(0, 9)]))
    return found


def text_of(found):
    def one(attribute, operator, values):
        if operator in ("in", "not in"):
            return f"{attribute} {operator} {{{','.join(map(str, values))}}}"
        return f"{attribute} {operator} {' and '.join(map(str, values))}"

    return " and ".join(one(*predicate) for predicate in found)


def event(pick, found, wide):
    """One value mostly, often an end of some condition or beside it."""
    def value():
        if found and pick.random() < 0.5:
            return pick.choice(pick.choice(found)[0][2]) + pick.randint(-1, 1)
        if wide and pick.random() < 0.2:
            return pick.choice([-WIDE - 1, -WIDE, WIDE - 2, WIDE - 1, WIDE])
        return pick.randint(0, TOP)

    least, most = (-WIDE - 1, WIDE) if wide else (0, TOP)
    kind = pick.random()
    count = 1 if kind < 0.8 else 0 if kind < 0.85 else pick.randint(2, 4)
    given = {"a": sorted({min(max(value(), least), most) for _ in range(count)})} if count else {}
    if pick.random() < 0.6:
        given["b"] = [pick.randint(0, 9)]
    return given


def event_text(given):
    def one(values):
        return str(values[0]) if len(values) == 1 else "{" + ",".join(map(str, values)) + "}"

    return " ".join(f"{attribute}={one(values)}" for attribute, values in given.items()) or "-"


def script(seed):
    """The lines, and the reply that each is to have."""
    pick, wide = random.Random(seed), seed % 3 == 0
    live, lines, replies, n, events = {}, [], [], 0, 0
    grows = True
    while events < 250:
        # it grows to some thousand rows, and falls and grows again
        grows = len(live) < 300 or (grows and len(live) < 2500)
        for _ in range(pick.randint(1, 120)):
            n += 1
            if pick.random() < (0.95 if grows else 0.2) or not live:
                found = condition(pick, wide)
                live[f"s{n}"] = found
                lines.append(f"SUB s{n} {text_of(found)}")
            else:
                gone = pick.choice(list(live))
                del live[gone]
                lines.append(f"UNSUB {gone}")
            replies.append(f"OK {n}")
        for _ in range(pick.randint(1, 4)):
            given = event(pick, list(live.values()), wide)
            hits = [name for name, found in live.items() if model.satisfies(given, found)]
            lines.append(f"PUB {event_text(given)}")
            replies.append(" ".join(["HIT", str(n), str(len(hits)), *hits]))
            events += 1
    schema = f"int a {-WIDE - 1} {WIDE}\nint b 0 9\n" if wide else f"int a 0 {TOP}\nint b 0 9\n"
    return schema, lines, replies


def main(program, scripts):
    for seed in range(scripts):
        schema, lines, replies = script(seed)
        with open("large_leaves.schema", "w") as file:
            file.write(schema)
        ran = subprocess.run([program, "run", "large_leaves.schema"], input="\n".join(lines).encode() + b"\n", stdout=subprocess.PIPE, check=True)
        given = ran.stdout.decode().split("\n")[:-1]
        for line, want, got in zip(lines, replies, given):
            if want != got:
                sys.exit(f"FAILED: script {seed}: {line}\n  wanted {want[:200]}\n  got    {got[:200]}")
        if len(given) != len(replies):
            sys.exit(f"FAILED: script {seed}: {len(given)} replies, and not {len(replies)}")
    print(f"{scripts} scripts of large leaves agree")


main(sys.argv[1], int(sys.argv[2]))
