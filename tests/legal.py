#!/usr/bin/env python3
"""Judges what `drill` wrote, by a reading of docs/use/protocol.md of its own: the form to the byte, the list of changes, each
transcript over that list, and the letters. Of tests/model.py it has the reading of lines and the canonical texts alone.

    legal.py SCHEMA [--load FILE] [--ample] [--shut] OUT FILE..     judges the output OUT over these files
    legal.py --self-test                                            shows that wrong outputs are refused

With --ample want of memory isn't taken as an answer: no NOMEM, no HELD, and each session leaves. With --shut a reader may
have been refused. Ends with 1, and a text, where the output isn't legal."""
import sys

sys.dont_write_bytecode = True
import letters
import model
from changes import History, Illegal, Stand, bits, number, require, schema_of, sizes

LINE, ASKED = 65536, 1000000
LEFT = "left"
WANTING = {"SUB", "UNSUB", "PUB", "COST", "LIST", "SEND", "DUMP", "TAIL", "QUIT"}
READS = {"PUB", "COST", "LIST", "SEND", "DUMP", "TAIL"}
PARTS = {"FETCH": "NOTE ", "DUMP": "ROW ", "TAIL": "AT "}


# readings


def lines_of(data):
    """The lines of a file; None stands for one that is over the limit."""
    lines = data.split(b"\n")
    rest = lines.pop()
    found = []
    for line in lines:
        is_long = len(line) > LINE
        found.append(None if is_long else line[:-1] if line.endswith(b"\r") else line)
    if rest:
        found.append(None if len(rest) > LINE else rest)
    return found


def event_in(reader):
    return {attribute: values for attribute, _, values in model.judged(reader.event(), True)}


def canonical_event(text):
    try:
        event = event_in(model.Reader(model.tokens(text)))
    except model.Refusal as refusal:
        raise Illegal(f"the event is {refusal}") from None
    require(model.event_text(event) == text, "the event isn't canonical")
    return event


def few(command, reader):
    """What a command says that has neither a condition nor an event."""
    if command == "UNSUB":
        return (reader.name(),)
    if command in ("FETCH", "TAIL"):
        said = (reader.count((1 << 63) - 1), reader.count(ASKED)) if command == "TAIL" else (reader.count(ASKED),)
        reader.wait()  # how long it waited changes nothing of what it may answer
        return said
    if command in ("LIST", "DUMP", "QUIT"):
        return ()
    raise model.Refusal("BAD")


def reading(line):
    """The command and what it says, or the one refusal."""
    if line is None:
        return "LONG", None
    try:
        reader = model.Reader(model.tokens(line.decode("latin-1")))
        command = reader.word()
        said = ()
        if command == "SUB":
            name, condition = reader.name(), model.judged(reader.condition(), False)
            said = name, model.condition_text(condition)
        elif command in ("PUB", "COST", "SEND"):
            said = event_in(reader)
        else:
            said = few(command, reader)
            reader.end()
        return command, said
    except model.Refusal as refusal:
        return str(refusal), None


# a transcript


class Walk:
    """A session's transcript over the list."""

    def __init__(self, session, history, replies, mail, readings):
        self.session, self.history, self.replies, self.mail, self.readings = session, history, replies, mail, readings
        self.at, self.seen, self.own, self.serial, self.ended = 0, history.opened, 0, 0, None
        self.stand, self.kinds = Stand(history), {}
        self.bits = {name: bits(size) for name, size in sizes().items()}

    def judge(self, lines):
        for line in lines:
            if self.ended:
                break
            command, said = self.read(line, reading)
            try:
                self.answer(command, said)
            except Illegal as fault:
                reply = self.replies[min(self.at, len(self.replies)) - 1] if self.at else "none"
                raise Illegal(f"file {self.session}, line {(line or b'LONG')[:200]!r}, reply {reply[:200]!r}: {fault}") from None
        require(self.at == len(self.replies), f"file {self.session}: a reply to no line:", *self.replies[self.at : self.at + 1])
        self.leave()

    def read(self, text, reader):
        """What a line or the event of a letter says, read once."""
        if text not in self.readings:
            self.readings[text] = reader(text)
        return self.readings[text]

    def next(self):
        require(self.at < len(self.replies), "it has no reply")
        self.at += 1
        return self.replies[self.at - 1]

    def answer(self, command, said):
        parts = []
        while command in PARTS and self.at < len(self.replies) and self.replies[self.at].startswith(PARTS[command]):
            parts.append(self.next())
        reply = self.next()
        words = reply.split(" ")
        self.kinds[words[0]] = self.kinds.get(words[0], 0) + 1
        if said is None:
            require(reply == command, "the refusal is", command)
        elif reply == "NOMEM" or reply == "SHUT":
            require(command in (WANTING if reply == "NOMEM" else READS) and not parts, reply, "doesn't answer", command)
            self.ended = "NOMEM" if command == "QUIT" else None
        else:
            getattr(self, command.lower())(words, said, parts)

    # changes

    def changed(self, words, change):
        require(len(words) == 2, "the reply has no reading")
        n = number(words[1])
        require(self.seen < n and self.own < n <= len(self.history.changes), "n is out of its bounds", self.seen, self.own)
        require(self.history.changes[n - 1] == change, "the list has", self.history.changes[n - 1])
        require(self.history.places_of[self.session][self.serial] == n - 1, "another change has the serial")
        self.own, self.serial = n, self.serial + 1
        self.seen = self.seen if words[0] == "HELD" else n

    def refused(self, words, name):
        require(len(words) == (2 if words[0] == "NONE" else 3), "the reply has no reading")
        m = number(words[1])
        require(max(self.seen, self.own) <= m <= len(self.history.changes), "m is out of its bounds", self.seen, self.own)
        row = self.history.named(m, name)
        self.seen = m
        if words[0] == "NONE":
            require(row is None, "the name is live")
        else:
            require(row and row.place == number(words[2]), "the name isn't live in that row")
            require(words[0] == "DUP" or row.session != self.session, "the row is of this session")

    def sub(self, words, said, _):
        if words[0] in ("OK", "HELD"):
            return self.changed(words, f"SUB {self.session} {self.serial} {said[0]} {said[1]}")
        require(words[0] == "DUP", "no reply to SUB")
        return self.refused(words, said[0])

    def unsub(self, words, said, _):
        if words[0] in ("OK", "HELD"):
            return self.changed(words, f"UNSUB {self.session} {self.serial} {said[0]}")
        require(words[0] in ("NONE", "OTHER"), "no reply to UNSUB")
        return self.refused(words, said[0])

    def quit(self, words, *_):
        require(words[0] in ("BYE", "HELD"), "no reply to QUIT")
        self.changed(words, f"BYE {self.session} {self.serial}")
        self.ended = LEFT

    # reads

    def shown(self, words, at=1):
        """The n of this reply, which the session has then seen."""
        require(len(words) > at, "the reply has no reading")
        n = number(words[at])
        require(self.seen <= n <= len(self.history.changes), "n is out of its bounds", self.seen)
        self.seen = n
        self.stand.forward(n)
        return n

    def same(self, words, want):
        require(words == want, "the reply is", " ".join(want))

    def names(self, words, command, rows):
        self.same(words, [command, str(self.seen), str(len(rows)), *[row.name for row in rows]])

    def pub(self, words, event, _):
        self.shown(words)
        self.names(words, "HIT", self.stand.hits(event))

    def list(self, words, *_):
        self.shown(words)
        self.names(words, "LIST", [row for row in self.stand.live.values() if row.session == self.session])

    def dump(self, words, _, parts):
        n = self.shown(words, 2)
        rows = self.stand.live.values()
        self.same(words, ["#", "DUMP", str(n), str(len(rows))])
        self.same(parts, [f"ROW {row.name} {row.text}" for row in rows])

    def tail(self, words, said, parts):
        n = self.shown(words)
        places = range(said[0], min(n, said[0] + said[1]))
        self.same(words, ["TAILED", str(n), str(len(places))])
        self.same(parts, [f"AT {place} {self.history.changes[place]}" for place in places])

    def cost(self, words, event, _):
        self.shown(words)
        require(words[0] == "COST" and len(words) == 4, "no reply to COST")
        visits, tested = number(words[2]), number(words[3])
        most = 1 + sum(self.stand.has.get(attribute, 0) * (1 + self.bits[attribute]) for attribute in event)
        require(1 <= visits <= most, "visits are at most", most)
        whole = sum(row.attributes <= event.keys() for row in self.stand.live.values())
        require(len(self.stand.hits(event)) <= tested <= 16 * visits + whole, "so many are tested at most:", 16 * visits + whole)

    # letters

    def send(self, words, event, _):
        n = self.shown(words)
        require(words[0] == "SENT" and len(words) == 4, "no reply to SEND")
        put, dropped = number(words[2]), number(words[3])
        rows = self.stand.hits(event)
        require(put + dropped == len(rows), "so many are hit:", len(rows))
        require(sum(row.session == 0 for row in rows) <= dropped, "a letter for nobody was put")
        self.mail.sent(self.session, n, model.event_text(event), [(row.session, row.name) for row in rows], put, dropped)

    def fetch(self, words, said, parts):
        self.same(words, ["END", str(len(parts))])
        require(len(parts) <= said[0], "so many were asked for:", said[0])
        for part in parts:
            self.mail.noted(self.session, self.note(part))
        if len(parts) < said[0]:
            self.mail.emptied(self.session)

    def note(self, part):
        word, n, name, text = (part.split(" ", 3) + [""] * 3)[:4]
        n = number(n)
        require(word == "NOTE" and n <= len(self.history.changes), "n is out of its bounds")
        event = self.read(text, canonical_event)
        row = self.history.named(n, name)
        require(row and row.session == self.session and row.is_met(event), "no such row was hit:", part)
        return n, name, text

    def leave(self):
        """At most one leave that wasn't asked for, behind what was answered."""
        places = self.history.places_of.get(self.session, [])[self.serial :]
        if places and self.ended is None:
            place = places.pop(0)
            change = self.history.changes[place]
            require(change == f"BYE {self.session} {self.serial}", f"file {self.session} wasn't told of", change)
            require(max(self.seen, self.own) <= place, f"file {self.session} leaves before what it saw:", place)
        require(not places, f"file {self.session} wasn't told of", *[self.history.changes[place] for place in places[:1]])


# the output


def parted(output, files):
    """The transcripts and the changes."""
    require(output.endswith(b"\n"), "the output doesn't end with LF")
    lines = output.decode("ascii", "backslashreplace").split("\n")[:-1]
    heads = [at for at, line in enumerate(lines) if line.startswith("== ")]
    want = [f"== {file}" for file in range(1, files + 1)]
    require([lines[at] for at in heads[:-1]] == want and heads[0] == 0, "the heads of the transcripts aren't 1 to", files)
    changes = lines[heads[-1] + 1 :]
    require(lines[heads[-1]] == f"== LOG {len(changes)}", "behind", lines[heads[-1]], "stand", len(changes), "changes")
    return [lines[head + 1 : after] for head, after in zip(heads, heads[1:])], changes


def judge(opening, files, output, is_ample=True, is_shut=False):
    """The number of changes, and how often each kind of reply stands there."""
    transcripts, changes = parted(output, len(files))
    history = History(changes, opening, len(files))
    mail, readings, kinds = letters.Mail(len(files)), {}, {}
    for session, (file, replies) in enumerate(zip(files, transcripts), 1):
        walk = Walk(session, history, replies, mail, readings)
        walk.judge(lines_of(file))
        for kind, count in walk.kinds.items():
            kinds[kind] = kinds.get(kind, 0) + count
    mail.judge(require)
    require(is_shut or "SHUT" not in kinds, "a reader was refused, and the status isn't 10")
    if is_ample:
        require(not kinds.keys() & {"NOMEM", "HELD"}, "memory is wanting")
        require(len(history.gone) == len(files), "so many sessions have left:", len(history.gone))
    return len(changes), kinds


def content(name):
    with open(name, "rb") as file:
        return file.read()


def main(words):
    load = words.pop(words.index("--load") + 1) if "--load" in words else None
    flags = [word for word in words if word.startswith("--")]
    schema, out, *files = [word for word in words if not word.startswith("--")]
    model.SCHEMA[:] = schema_of(content(schema).decode("latin-1"))
    opening, fault = model.table(content(load).decode("latin-1").replace("\r\n", "\n")) if load else ([], None)
    if fault:
        sys.exit(fault)
    try:
        count, kinds = judge(opening, [content(file) for file in files], content(out), "--ample" in flags, "--shut" in flags)
    except Illegal as why:
        sys.exit(f"NOT LEGAL: {why}")
    print(f"legal over {count} changes:", ", ".join(f"{kinds[kind]} {kind}" for kind in sorted(kinds)))


if __name__ == "__main__":
    if hasattr(sys, "set_int_max_str_digits"):
        sys.set_int_max_str_digits(0)
    if sys.argv[1:2] == ["--self-test"]:
        import illegal

        illegal.main()
    else:
        main(sys.argv[1:])
