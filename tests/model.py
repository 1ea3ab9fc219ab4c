#!/usr/bin/env python3
"""Compares the program with docs/use/protocol.md and docs/use/matching.md, as a model in Python that was written from these
pages alone: random sessions, good lines and faulty ones, each reply byte for byte, also over load files, and faulty load
files. The same lines at each run. Its words: the program, and how many sessions."""
import os
import random
import re
import subprocess
import sys
import tempfile

RESERVED = {"all", "and", "between", "in", "not"}
SCHEMA = [
    ("price", 0, 1000),
    ("qty", -5, 5),
    ("one", 7, 7),
    ("side", ["buy", "sell", "hold"]),
    ("tag", ["all", "in", "7", "x-y.z"]),
]
BOX = 1024
ASKED = 1000000
WAITED = 60000
TOKEN = re.compile(r"[A-Za-z0-9_.-]+|<=|>=|!=|[<>={},]")
WORD = re.compile(r"[A-Za-z0-9_.-]+")


class Refusal(Exception):
    pass


def tokens(line):
    found, at = [], 0
    while at < len(line):
        if line[at] in " \t":
            at += 1
            continue
        token = TOKEN.match(line, at)
        if not token:
            raise Refusal("BAD")
        found.append(token.group())
        at = token.end()
    return found


class Reader:
    """Reads tokens from the left; what doesn't fit is BAD."""

    def __init__(self, left):
        self.left = left

    def word(self):
        if not self.left or not WORD.fullmatch(self.left[0]):
            raise Refusal("BAD")
        return self.left.pop(0)

    def take(self, token):
        if self.left[:1] != [token]:
            raise Refusal("BAD")
        self.left.pop(0)

    def attribute(self):
        word = self.word()
        if word in RESERVED or len(word) > 64:
            raise Refusal("BAD")
        return word

    def name(self):
        word = self.word()
        if len(word) > 64:
            raise Refusal("BAD")
        return word

    def count(self, limit):
        word = self.word()
        if not re.fullmatch("[0-9]+", word) or int(word) > limit:
            raise Refusal("BAD")
        return int(word)

    def wait(self):
        """How many milliseconds a line may wait, where it says so. The model never waits."""
        if self.left:
            self.count(WAITED)

    def end(self):
        if self.left:
            raise Refusal("BAD")

    def values(self):
        self.take("{")
        words = [self.word()]
        while self.left[:1] == [","]:
            self.take(",")
            words.append(self.word())
        self.take("}")
        return words

    def predicate(self):
        attribute = self.attribute()
        if self.left[:1] and self.left[0] in ("<", "<=", "=", "!=", ">=", ">"):
            return attribute, self.left.pop(0), [self.word()], False
        operator = self.word()
        if operator == "between":
            low = self.word()
            self.take("and")
            return attribute, operator, [low, self.word()], False
        if operator == "not":
            self.take("in")
            return attribute, "not in", self.values(), True
        if operator != "in":
            raise Refusal("BAD")
        return attribute, operator, self.values(), True

    def condition(self):
        if self.left == ["all"]:
            return []
        predicates = [self.predicate()]
        while self.left:
            self.take("and")
            predicates.append(self.predicate())
        return predicates

    def event(self):
        if self.left == ["-"]:
            return []
        items = []
        while self.left or not items:
            attribute = self.attribute()
            self.take("=")
            is_set = self.left[:1] == ["{"]
            items.append((attribute, "=", self.values() if is_set else [self.word()], is_set))
        return items


def value_in(domain, word):
    if isinstance(domain[0], list):
        return domain[0].index(word) if word in domain[0] else None
    if not re.fullmatch(r"-?[0-9]+", word):
        return None
    return int(word) if domain[0] <= int(word) <= domain[1] else None


def judged(parts, is_event):
    """The parts with their values as numbers, or the first refusal in the order of the page."""
    domains = {name: domain for name, *domain in SCHEMA}
    for attribute, *_ in parts:
        if attribute not in domains:
            raise Refusal(f"ATTR {attribute}")
    meant = []
    for attribute, operator, words, _ in parts:
        values = [value_in(domains[attribute], word) for word in words]
        if None in values:
            raise Refusal(f"DOM {attribute}")
        meant.append((attribute, operator, values))
    seen = set()
    for attribute, *_ in parts if is_event else []:
        if attribute in seen:
            raise Refusal(f"TWICE {attribute}")
        seen.add(attribute)
    if not is_event and len(parts) > 32:
        raise Refusal(f"MANY {len(parts)}")
    for _, _, words, is_set in parts:
        if is_set and len(words) > 64:
            raise Refusal(f"MANY {len(words)}")
    return meant


HOLDS = {
    "<": lambda v, x: v < x[0],
    "<=": lambda v, x: v <= x[0],
    "=": lambda v, x: v == x[0],
    "!=": lambda v, x: v != x[0],
    ">=": lambda v, x: v >= x[0],
    ">": lambda v, x: v > x[0],
    "between": lambda v, x: x[0] <= v <= x[1],
    "in": lambda v, x: v in x,
    "not in": lambda v, x: v not in x,
}


def value_text(attribute, value):
    domain = {name: domain for name, *domain in SCHEMA}[attribute]
    return domain[0][value] if isinstance(domain[0], list) else str(value)


def set_text(attribute, values):
    return "{" + ",".join(value_text(attribute, value) for value in sorted(set(values))) + "}"


def predicate_text(attribute, operator, values):
    if operator in ("in", "not in"):
        return f"{attribute} {operator} {set_text(attribute, values)}"
    return f"{attribute} {operator} " + " and ".join(value_text(attribute, value) for value in values)


def condition_text(condition):
    return " and ".join(predicate_text(*predicate) for predicate in condition) or "all"


def event_text(event):
    def item(attribute):
        values = event[attribute]
        return set_text(attribute, values) if len(set(values)) > 1 else value_text(attribute, values[0])

    return " ".join(f"{name}={item(name)}" for name, *_ in SCHEMA if name in event) or "-"


class Model:
    """A session. A row is its id, its session, its name and its condition; the list of changes is kept as texts."""

    def __init__(self, opening=()):
        self.log, self.live, self.box, self.serial, self.ended = [], [], [], 0, False
        for place, (name, condition) in enumerate(opening):
            self.log.append(f"SUB 0 {place} {name} {condition_text(condition)}")
            self.live.append((place, 0, name, condition))

    def reply(self, line):
        """The lines of the reply."""
        if len(line) > 65536:
            return ["LONG"]
        try:
            return self.answer(Reader(tokens(line)))
        except Refusal as refusal:
            return [str(refusal)]

    def change(self, command, *words):
        self.log.append(" ".join([command, "1", str(self.serial), *words]))
        self.serial += 1
        return len(self.log)

    def answer(self, reader):
        command, n = reader.word(), len(self.log)
        if command == "SUB":
            name = reader.name()
            return [self.subscribed(name, judged(reader.condition(), False))]
        if command == "UNSUB":
            name = reader.name()
            reader.end()
            return [self.unsubscribed(name)]
        if command in ("PUB", "SEND"):
            event = {attribute: values for attribute, _, values in judged(reader.event(), True)}
            hits = [row for row in self.live if satisfies(event, row[3])]
            return [named("HIT", n, hits) if command == "PUB" else self.sent(event, hits)]
        if command == "FETCH":
            most = reader.count(ASKED)
            reader.wait()
            reader.end()
            given, self.box = self.box[:most], self.box[most:]
            return [*given, f"END {len(given)}"]
        if command == "TAIL":
            first, most = reader.count((1 << 63) - 1), reader.count(ASKED)
            reader.wait()
            reader.end()
            told = [f"AT {place} {self.log[place]}" for place in range(first, min(n, first + most))]
            return [*told, f"TAILED {n} {len(told)}"]
        if command not in ("LIST", "DUMP", "QUIT"):
            raise Refusal("BAD")
        reader.end()
        if command == "LIST":
            return [named("LIST", n, [row for row in self.live if row[1] == 1])]
        if command == "DUMP":
            rows = [f"ROW {name} {condition_text(condition)}" for _, _, name, condition in self.live]
            return [*rows, f"# DUMP {n} {len(rows)}"]
        self.ended = True
        return [f"BYE {self.change('BYE')}"]

    def subscribed(self, name, condition):
        for identity, _, known, _ in self.live:
            if known == name:
                return f"DUP {len(self.log)} {identity}"
        self.live.append((len(self.log), 1, name, condition))
        return f"OK {self.change('SUB', name, condition_text(condition))}"

    def unsubscribed(self, name):
        for row in self.live:
            if row[2] == name and row[1] != 1:
                return f"OTHER {len(self.log)} {row[0]}"
            if row[2] == name:
                self.live.remove(row)
                return f"OK {self.change('UNSUB', name)}"
        return f"NONE {len(self.log)}"

    def sent(self, event, hits):
        n, put = len(self.log), 0
        for _, session, name, _ in hits:
            if session == 1 and len(self.box) < BOX:
                self.box.append(f"NOTE {n} {name} {event_text(event)}")
                put += 1
        return f"SENT {n} {put} {len(hits) - put}"


def named(word, n, rows):
    return " ".join([word, str(n), str(len(rows)), *[name for _, _, name, _ in rows]])


def table(text):
    """The rows of a load file, or the text of its first fault."""
    rows = []
    for number, line in enumerate(text.split("\n"), 1):
        if line.strip(" \t") == "" or line.lstrip(" \t").startswith("#"):
            continue
        try:
            reader = Reader(tokens(line))
            reader.take("ROW")
            name = reader.name()
            condition = judged(reader.condition(), False)
        except Refusal as refusal:
            kinds = {"BAD": "Form", "ATTR": "Attr", "DOM": "Dom", "MANY": "Many"}
            return [], f"load line {number}: {kinds[str(refusal).split()[0]]}"
        if name in [known for known, _ in rows]:
            return [], f"load line {number}: Twice"
        rows.append((name, condition))
    return rows, None


def satisfies(event, condition):
    def is_met(attribute, operator, values):
        return any(HOLDS[operator](v, values) for v in event.get(attribute, []))

    return all(is_met(*predicate) for predicate in condition)


class Lines:
    """Random lines: mostly good ones, with words and tokens that are off now and then."""

    def __init__(self, seed):
        self.random = random.Random(seed)

    def value(self, attribute):
        pick = self.random
        if pick.random() < 0.04:
            return pick.choice(["1001", "-6", "-0", "007", "buy", "and", "99999999999999999999", "x"])
        for name, *domain in SCHEMA:
            if name == attribute:
                return pick.choice(domain[0]) if isinstance(domain[0], list) else str(pick.randint(*domain))
        return "1"

    def attribute(self):
        if self.random.random() < 0.03:
            return self.random.choice(["cost", "all", "in", "Price", "a" * 65, "-"])
        return self.random.choice(SCHEMA)[0]

    def set_of(self, attribute):
        count = self.random.choice([64, 65]) if self.random.random() < 0.02 else self.random.randint(1, 4)
        return "{" + ", ".join(self.value(attribute) for _ in range(count)) + "}"

    def predicate(self):
        attribute = self.attribute()
        operator = self.random.choice(["<", "<=", "=", "!=", ">=", ">", "between", "in", "not in"])
        if operator == "between":
            return f"{attribute} between {self.value(attribute)} and {self.value(attribute)}"
        if "in" in operator:
            return f"{attribute} {operator} {self.set_of(attribute)}"
        return self.random.choice([" ", ""]).join([attribute, operator, self.value(attribute)])

    def condition(self):
        if self.random.random() < 0.1:
            return "all"
        count = self.random.choice([32, 33]) if self.random.random() < 0.02 else self.random.randint(1, 3)
        return " and ".join(self.predicate() for _ in range(count))

    def event(self):
        if self.random.random() < 0.1:
            return "-"
        some = self.random.sample([name for name, *_ in SCHEMA], self.random.randint(1, 4))
        if self.random.random() < 0.05:
            some.append(self.attribute())
        return " ".join(f"{it}={self.set_of(it) if self.random.random() < 0.3 else self.value(it)}" for it in some)

    def name(self):
        return self.random.choice(["a", "b", "c", "d", "all", "x.y", "n" * 64, "n" * 65])

    def spoiled(self, line, often):
        if self.random.random() < often:
            at = self.random.randrange(len(line))
            line = line[:at] + self.random.choice(["", " ", "=", "{", "}", ",", "!", "\r", "#", "and", "\t"]) + line[at + 1 :]
        return line

    def count(self):
        return self.random.choice(["0", "1", "2", "3", "5", "007", "40", "1000000", "1000001", "9" * 18, "9" * 20, "x", "-1", ""])

    def wait(self):
        pick = self.random
        return "" if pick.random() < 0.6 else " " + pick.choice(["0", "1", "007", "60000", "60001", "9" * 20, "x", "-1", "1 2"])

    def line(self, sends):
        pick = self.random
        sub, pub, unsub = f"SUB {self.name()} {self.condition()}", f"PUB {self.event()}", f"UNSUB {self.name()}"
        send, fetch, tail = f"SEND {self.event()}", f"FETCH {self.count()}{self.wait()}", f"TAIL {self.count()} {self.count()}{self.wait()}"
        few = [sub] * 4 + [pub] * 6 + [unsub] * 2 + ["LIST", "DUMP", "DUMP x", tail, fetch]
        return self.spoiled(pick.choice(few + [send] * sends), 0.05)

    def load_file(self, often):
        """Rows under different names, comments and empty lines; now and then a fault."""
        names = ["a", "o1", "o2", "o3", "ROW", "o" * 64]
        lines = [f"ROW {name} {self.condition()}" for name in names[: self.random.randint(0, 6)]]
        lines += ["# ROW a all", "", " \t", "  # x!"] + ([f"ROW a {self.condition()}"] if self.random.random() < often else [])
        self.random.shuffle(lines)
        return "".join(self.spoiled(line, often) + "\n" if line else "\n" for line in lines)


def good_load_file(lines):
    while True:
        text = lines.load_file(0)
        rows, fault = table(text)
        if fault is None:
            return text, rows


def session(program, schema, load, seed):
    lines = Lines(seed)
    sends, count = (12, 1200) if seed % 5 == 0 else (3, 300)
    asked = [lines.line(sends) for _ in range(count)] + ["x" * 65536, "x" * 65537, "LIST", "DUMP", "TAIL 0 1000000"]
    if seed % 5 == 0:
        asked = ["SUB a all", "SUB b all"] + [line for line in asked if not line.startswith(("FETCH", "UNSUB"))]
        asked += ["FETCH 1000", "SEND -", "FETCH 1000"]
    asked += ["QUIT", "LIST"] if seed % 2 else []
    words, opening = [program, "run", schema], []
    if seed % 3 == 0:
        text, opening = good_load_file(lines)
        with open(load, "w") as file:
            file.write(text)
        words += ["--load", load]
    model, wanted = Model(opening), []
    for line in asked:
        if not model.ended:
            # (a CR at the end of a line is no part of it)
            replies = model.reply(line[:-1] if line.endswith("\r") and len(line) <= 65536 else line)
            wanted += [(line, reply) for reply in replies]
    text = "".join(line + "\n" for line in asked).encode()
    ran = subprocess.run(words, input=text, stdout=subprocess.PIPE, check=True)
    given = ran.stdout.decode().split("\n")[:-1]
    for number, ((line, want), got) in enumerate(zip(wanted, given), 1):
        if want != got:
            told = f"{line[:200]!r}: {got[:200]!r}, and not {want[:200]!r}"
            sys.exit(f"FAILED: model: session {seed}, line {number} of the replies: {told}")
    if len(wanted) != len(given):
        sys.exit(f"FAILED: model: session {seed}: {len(given)} lines of replies, and not {len(wanted)}")
    return [reply for _, reply in wanted]


def load_fault(program, schema, load, seed):
    """A load file, which has a fault more often than not: its text on standard error, and no session; or an empty session."""
    text = Lines(seed).load_file(0.2)
    with open(load, "w") as file:
        file.write(text)
    fault = table(text.replace("\r\n", "\n"))[1]
    ran = subprocess.run([program, "run", schema, f"--load={load}"], stdin=subprocess.DEVNULL, capture_output=True)
    given = (ran.returncode, ran.stdout.decode(), ran.stderr.decode())
    wanted = (3 if fault else 0, "", f"{fault}\n" if fault else "")
    if given != wanted:
        sys.exit(f"FAILED: model: load file {seed}: {given!r}, and not {wanted!r}, for {text!r}")
    return fault.split()[-1] if fault else "none"


def main(program, sessions):
    with tempfile.TemporaryDirectory() as room:
        schema, load = os.path.join(room, "schema.txt"), os.path.join(room, "load.txt")
        with open(schema, "w") as file:
            for name, *domain in SCHEMA:
                is_sym = isinstance(domain[0], list)
                file.write(f"sym {name} {' '.join(domain[0])}\n" if is_sym else f"int {name} {domain[0]} {domain[1]}\n")
        told = [session(program, schema, load, seed) for seed in range(int(sessions))]
        faults = [load_fault(program, schema, load, seed) for seed in range(5 * int(sessions))]
    replies = [reply.split(" ") for replies in told for reply in replies]
    kinds = sorted({reply[0] for reply in replies})
    wanted = ["#", "AT", "ATTR", "BAD", "BYE", "DOM", "DUP", "END", "HIT", "LIST", "LONG", "MANY", "NONE", "NOTE", "OK"]
    wanted += ["OTHER", "ROW", "SENT", "TAILED", "TWICE"]
    if kinds != wanted:
        sys.exit(f"FAILED: model: replies of the kinds {kinds} alone")
    if sorted(set(faults)) != ["Attr", "Dom", "Form", "Many", "Twice", "none"]:
        sys.exit(f"FAILED: model: faults of load files of the kinds {sorted(set(faults))} alone")
    # session 5 has no load file, so where it drops a letter its box is full
    if not any(reply.startswith("SENT") and reply.split()[2:] != ["0", "0"] and reply.split()[3] != "0" for reply in told[5]):
        sys.exit("FAILED: model: no box was full")
    print(f"the model of docs/use/protocol.md: {len(replies)} lines of replies and {len(faults)} load files, no difference")


if __name__ == "__main__":
    main(*sys.argv[1:])
