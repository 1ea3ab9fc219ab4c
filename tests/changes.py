"""The list of changes that `drill` prints, judged: a part of tests/legal.py, with the schema and when a condition holds."""
import bisect
import re

import model

NUMBER = re.compile("0|[1-9][0-9]*")


class Illegal(Exception):
    pass


def require(holds, *text):
    if not holds:
        raise Illegal(" ".join(str(part)[:300] for part in text))


def number(word):
    require(NUMBER.fullmatch(word), "no number in shortest decimal:", word)
    return int(word)


# the schema


def schema_of(text):
    """A good schema, as the model has it."""
    attributes = []
    for line in text.replace("\r\n", "\n").split("\n"):
        words = re.split("[ \t]+", line.strip(" \t"))
        if words[0] == "int":
            attributes.append((words[1], int(words[2]), int(words[3])))
        elif words[0] == "sym":
            attributes.append((words[1], words[2:]))
    return attributes


def bits(size):
    return 0 if size <= 1 else 1 + bits((size + 1) // 2)


def sizes():
    return {name: len(domain[0]) if len(domain) == 1 else domain[1] - domain[0] + 1 for name, *domain in model.SCHEMA}


# when a condition holds


def test_of(operator, words):
    """A predicate as a test of one value."""
    first, last = words[0], words[-1]
    many = frozenset(words)
    return {
        "<": first.__gt__,
        "<=": first.__ge__,
        "=": first.__eq__,
        "!=": first.__ne__,
        ">=": first.__le__,
        ">": first.__lt__,
        "between": range(first, last + 1).__contains__,
        "in": many.__contains__,
        "not in": lambda value: value not in many,
    }[operator]


class Row:
    """A subscription: live from behind the change at `place` until the change at `dies`."""

    def __init__(self, place, session, name, condition, text):
        self.place, self.session, self.name, self.text, self.dies = place, session, name, text, None
        self.tests = [(attribute, test_of(operator, values)) for attribute, operator, values in condition]
        self.attributes = frozenset(attribute for attribute, _ in self.tests)

    def is_met(self, event):
        for attribute, test in self.tests:
            values = event.get(attribute)
            if values is None or not any(map(test, values)):
                return False
        return True


# the list of changes


class History:
    """The list, judged: well formed, in canonical texts, with the opening first and changes of these files behind it."""

    def __init__(self, changes, opening, files):
        self.changes, self.opened = changes, len(opening)
        self.born, self.killed = [], []
        self.rows_of, self.places_of = {}, {}
        self.live, self.gone, self.conditions = {}, set(), {}
        require(len(changes) >= len(opening), "the list is shorter than the opening")
        for place, change in enumerate(changes):
            if place < len(opening):
                name, condition = opening[place]
                want = f"SUB 0 {place} {name} {model.condition_text(condition)}"
                require(change == want, "the opening has", want, "and the list", change)
            try:
                self.take(place, change, files)
            except Illegal as fault:
                raise Illegal(f"change {place}, {change[:200]!r}: {fault}") from None

    def take(self, place, change, files):
        command, *words = change.split(" ", 4)
        parts = {"SUB": 4, "UNSUB": 3, "BYE": 2}.get(command)
        words = words if command == "SUB" else change.split(" ")[1:]
        require(parts == len(words), "it has no reading")
        session, serial = number(words[0]), number(words[1])
        known = range(0, 1) if place < self.opened else range(1, files + 1)
        require(session in known, "it is of session", session)
        places = self.places_of.setdefault(session, [])
        require(serial == len(places), "the serial is not", len(places))
        require(session not in self.gone, "the session has left")
        places.append(place)
        born, killed = None, []
        if command == "SUB":
            born = self.row(place, session, *words[2:])
        elif command == "UNSUB":
            require(words[2] in self.live, "the name isn't live")
            killed = [self.live.pop(words[2])]
            require(killed[0].session == session, "the name is of session", killed[0].session)
        else:
            killed = [row for row in self.live.values() if row.session == session]
            for row in killed:
                del self.live[row.name]
            self.gone.add(session)
        for row in killed:
            row.dies = place
        self.born.append(born)
        self.killed.append(killed)

    def row(self, place, session, name, text):
        require(model.WORD.fullmatch(name) and len(name) <= 64, "no name:", name)
        require(name not in self.live, "the name is live")
        if text not in self.conditions:
            try:
                condition = model.judged(model.Reader(model.tokens(text)).condition(), False)
            except model.Refusal as refusal:
                raise Illegal(f"the condition is {refusal}") from None
            require(model.condition_text(condition) == text, "the condition isn't canonical")
            self.conditions[text] = condition
        row = Row(place, session, name, self.conditions[text], text)
        self.live[name] = row
        self.rows_of.setdefault(name, []).append(row)
        return row

    def named(self, n, name):
        """The row of this name that is live after the first n changes."""
        rows = self.rows_of.get(name, [])
        at = bisect.bisect_left(rows, n, key=lambda row: row.place)
        found = rows[at - 1] if at else None
        return found if found and (found.dies is None or n <= found.dies) else None


class Stand:
    """What is live after the first n changes, for n that never falls."""

    def __init__(self, history):
        self.history, self.n, self.live, self.has = history, 0, {}, {}

    def forward(self, n):
        for place in range(self.n, n):
            row = self.history.born[place]
            if row:
                self.live[row.place] = row
                self.count(row, 1)
            for row in self.history.killed[place]:
                del self.live[row.place]
                self.count(row, -1)
        self.n = n

    def count(self, row, by):
        for attribute in row.attributes:
            self.has[attribute] = self.has.get(attribute, 0) + by

    def hits(self, event):
        return [row for row in self.live.values() if row.is_met(event)]
