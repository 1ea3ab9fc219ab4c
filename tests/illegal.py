"""What tests/legal.py must refuse: a legal output worked by hand with edits of it, and random legal outputs, which a plain
server in Python makes, with edits at each of their lines. `legal.py --self-test` runs it."""
import random
import sys

import legal
import model

SEEDS = 6
SCHEMA = "int price 0 1000\nint qty -5 5\nsym side buy sell hold\nint one 7 7\n"
OPENING = "ROW o price < 5\n"
FILES = [
    b"SUB a all\nPUB price=1\nSUB a all\nSEND price=1\nSEND -\nUNSUB b\nFETCH 5 300\nUNSUB zz\nLIST\nCOST price=1\nDUMP\nTAIL 1 2 60000\n"
    b"SUB c cost = 1\n" + b"x" * 65537 + b"\r\nQUIT\nPUB -\n",
    b"SUB b price>=1\r\nPUB price=1\nFETCH 1\nUNSUB b\nSUB b all\nSEND qty=0\nFETCH 9 0\nFETCH 9 60001",
]
OUTPUT = """== 1
OK 2
HIT 2 2 o a
DUP 2 1
SENT 3 2 1
SENT 3 1 0
OTHER 3 2
NOTE 3 a price=1
NOTE 3 a -
NOTE 5 a qty=0
END 3
NONE 5
LIST 5 1 a
COST 5 1 3
ROW o price < 5
ROW a all
ROW b all
# DUMP 5 3
AT 1 SUB 1 0 a all
AT 2 SUB 2 0 b price >= 1
TAILED 5 2
ATTR cost
LONG
BYE 6
== 2
OK 3
HIT 3 3 o a b
NOTE 3 b price=1
END 1
OK 4
OK 5
SENT 5 2 0
NOTE 5 b qty=0
END 1
BAD
== LOG 7
SUB 0 0 o price < 5
SUB 1 0 a all
SUB 2 0 b price >= 1
UNSUB 2 1 b
SUB 2 2 b all
BYE 1 1
BYE 2 3
"""
# each with what it replaces, which stands there once, and with what
EDITS = [
    ("the last change is gone", "BYE 2 3\n", ""),
    ("the last change is gone, and not counted", "BYE 2 3\n", "", "== LOG 7", "== LOG 6"),
    ("a change that isn't counted", "== LOG 7", "== LOG 6"),
    ("a session that isn't there leaves", "BYE 2 3\n", "BYE 2 3\nBYE 99 0\n", "== LOG 7", "== LOG 8"),
    ("a change that nobody is told of", "BYE 2 3\n", "SUB 2 3 c all\nBYE 2 4\n", "== LOG 7", "== LOG 8"),
    ("a change behind a leave", "BYE 2 3\n", "BYE 2 3\nSUB 2 4 c all\n", "== LOG 7", "== LOG 8"),
    ("a silent leave twice", "BYE 2 3\n", "BYE 2 3\nBYE 2 4\n", "== LOG 7", "== LOG 8"),
    ("text behind the list", "BYE 2 3\n", "BYE 2 3\n\n"),
    ("no LF at the end", "BYE 2 3\n", "BYE 2 3"),
    ("a log without its length", "== LOG 7", "== LOG"),
    ("a length with a zero before it", "== LOG 7", "== LOG 07"),
    ("no head", "== 1\n", ""),
    ("a head twice", "== 2\n", "== 2\n== 2\n"),
    ("a head of another number", "== 2\n", "== 3\n"),
    ("a CR", "OK 2\n", "OK 2\r\n"),
    ("two spaces", "HIT 2 2 o a\n", "HIT 2  2 o a\n"),
    ("a space at the end", "HIT 2 2 o a\n", "HIT 2 2 o a \n"),
    ("an empty line", "END 3\n", "END 3\n\n"),
    ("no reply", "DUP 2 1\n", ""),
    ("a reply too many", "BAD\n", "BAD\nBAD\n"),
    ("a reply behind QUIT", "BYE 6\n", "BYE 6\nHIT 6 0\n"),
    ("another refusal", "ATTR cost", "DOM cost"),
    ("a refusal of a good line", "HIT 3 3 o a b", "BAD"),
    ("a good reply to a line without reading", "BAD", "LIST 5 1 b"),
    ("a line over the limit that is read", "LONG", "BAD"),
    ("a HIT with a name fewer", "HIT 3 3 o a b", "HIT 3 2 o b"),
    ("a HIT with a name fewer, not counted", "HIT 3 3 o a b", "HIT 3 3 o b"),
    ("a HIT with a name too many", "HIT 2 2 o a", "HIT 2 3 o a b"),
    ("a HIT with a name twice", "HIT 2 2 o a", "HIT 2 3 o a a"),
    ("a HIT in another order", "HIT 3 3 o a b", "HIT 3 3 o b a"),
    ("a HIT that saw less", "HIT 2 2 o a", "HIT 1 1 o"),
    ("a HIT that saw more than there is", "HIT 3 3 o a b", "HIT 8 3 o a b"),
    ("a HIT that saw more", "HIT 3 3 o a b", "HIT 4 3 o a b"),
    ("a HIT of later", "HIT 2 2 o a", "HIT 5 3 o a b"),
    ("a HIT with a sign", "HIT 2 2 o a", "HIT +2 2 o a"),
    ("a LIST of others' names", "LIST 5 1 a", "LIST 5 2 a b"),
    ("a LIST without a name", "LIST 5 1 a", "LIST 5 0"),
    ("a LIST that saw less", "LIST 5 1 a", "LIST 4 1 a"),
    ("a DUMP without a row", "ROW a all\n", ""),
    ("a DUMP in another order", "ROW o price < 5\nROW a all\n", "ROW a all\nROW o price < 5\n"),
    ("a DUMP of another condition", "ROW o price < 5\nROW", "ROW o price<5\nROW"),
    ("a DUMP of another length", "# DUMP 5 3", "# DUMP 5 4"),
    ("a DUMP that saw less", "# DUMP 5 3", "# DUMP 4 3"),
    ("a TAIL without a change", "AT 2 SUB 2 0 b price >= 1\n", ""),
    ("a TAIL of another change", "AT 1 SUB 1 0 a all", "AT 1 SUB 1 0 a price < 5"),
    ("a TAIL of another place", "AT 1 SUB 1 0 a all", "AT 0 SUB 1 0 a all"),
    ("a TAIL that saw less", "TAILED 5 2", "TAILED 4 2"),
    ("a COST of nothing visited", "COST 5 1 3", "COST 5 0 3"),
    ("a COST of fewer tests than hits", "COST 5 1 3", "COST 5 1 2"),
    ("a COST over the bound of visits", "COST 5 1 3", "COST 5 13 3"),
    ("a COST over the bound of tests", "COST 5 1 3", "COST 5 1 20"),
    ("a COST that saw less", "COST 5 1 3", "COST 2 1 2"),
    ("a COST in place of a HIT", "HIT 2 2 o a", "COST 2 1 2"),
    ("an OK of another place", "OK 4\n", "OK 5\n"),
    ("an OK of another session's change", "OK 3\n", "OK 2\n"),
    ("an OK of the place and not of the number", "OK 2\n", "OK 1\n"),
    ("a DUP in place of an OK", "OK 2\n", "DUP 2 1\n"),
    ("a DUP of another row", "DUP 2 1", "DUP 2 0"),
    ("a DUP that saw less than its own change", "DUP 2 1", "DUP 1 1"),
    ("a DUP to UNSUB", "OTHER 3 2", "DUP 3 2"),
    ("an OTHER before the row", "OTHER 3 2", "OTHER 2 2"),
    ("an OTHER of another row", "OTHER 3 2", "OTHER 3 1"),
    ("an OTHER of no row", "OTHER 3 2", "OTHER 4 2"),
    ("an OTHER to SUB", "DUP 2 1", "OTHER 2 1"),
    ("a NONE of a live name", "OTHER 3 2", "NONE 3"),
    ("a NONE that saw less", "NONE 5", "NONE 2"),
    ("a NONE of beyond the list", "NONE 5", "NONE 8"),
    ("a NOMEM to a FETCH", "NOTE 5 b qty=0\nEND 1\nBAD", "NOMEM\nBAD"),
    ("a SPLIT", "HIT 2 2 o a", "SPLIT 2 1"),
    ("a BYE of another place", "BYE 6", "BYE 7"),
    ("a BYE that isn't in the list", "BYE 1 1\n", "", "== LOG 7", "== LOG 6"),
    ("a BYE in the list that wasn't answered", "BYE 6\n", "NOMEM\n"),
    ("a leave before the letter of it", "BYE 1 1\nBYE 2 3\n", "BYE 2 3\nBYE 1 1\n"),
    ("a serial too high", "UNSUB 2 1 b", "UNSUB 2 2 b"),
    ("a serial twice", "SUB 2 2 b all", "SUB 2 1 b all"),
    ("another session's change", "\nSUB 2 0 b", "\nSUB 1 0 b"),
    ("a session that has no file", "BYE 2 3", "BYE 99 0"),
    ("a session that is nobody", "BYE 2 3", "BYE 0 1"),
    ("two changes in each other's place", "\nSUB 1 0 a all\nSUB 2 0 b price >= 1\n", "\nSUB 2 0 b price >= 1\nSUB 1 0 a all\n"),
    ("another condition", "\nSUB 1 0 a all\nSUB 2 0", "\nSUB 1 0 a qty = 0\nSUB 2 0"),
    ("a condition that isn't canonical", "\nSUB 2 0 b price >= 1\nUNSUB", "\nSUB 2 0 b price>=1\nUNSUB"),
    ("another name", "\nSUB 1 0 a all\nSUB 2 0", "\nSUB 1 0 c all\nSUB 2 0"),
    ("a live name twice", "UNSUB 2 1 b\n", "SUB 2 1 b all\n"),
    ("an UNSUB of a name that isn't live", "UNSUB 2 1 b", "UNSUB 2 1 zz"),
    ("an UNSUB of another session's name", "UNSUB 2 1 b", "UNSUB 2 1 a"),
    ("another opening", "SUB 0 0 o price < 5", "SUB 0 0 o all"),
    ("an opening that isn't first", "\nSUB 0 0 o price < 5\nSUB 1 0 a all\n", "\nSUB 1 0 a all\nSUB 0 0 o price < 5\n"),
    ("an opening of session 1", "SUB 0 0 o price < 5", "SUB 1 0 o price < 5"),
    ("a SENT of too few", "SENT 3 2 1", "SENT 3 1 1"),
    ("a SENT that put a letter for nobody", "SENT 3 2 1", "SENT 3 3 0"),
    ("a SENT that saw less", "SENT 3 1 0", "SENT 2 1 0"),
    ("a letter that came, and wasn't put", "SENT 5 2 0", "SENT 5 1 1"),
    ("a letter that is dropped, by a box that isn't full", "SENT 5 2 0", "SENT 5 1 1", "NOTE 5 a qty=0\n", "", "END 3", "END 2"),
    ("a letter twice", "NOTE 3 a -\n", "NOTE 3 a -\nNOTE 3 a -\n", "END 3", "END 4"),
    ("letters out of order", "NOTE 3 a price=1\nNOTE 3 a -\n", "NOTE 3 a -\nNOTE 3 a price=1\n"),
    ("a letter that isn't fetched", "NOTE 5 b qty=0\nEND 1\n", "END 0\n"),
    ("a letter that is lost", "NOTE 3 a -\n", "", "END 3", "END 2"),
    ("a letter that nobody sent", "NOTE 3 a -\n", "NOTE 3 a qty=1\n"),
    ("a letter of another number", "NOTE 3 a -\n", "NOTE 4 a -\n"),
    ("a letter of another name", "NOTE 3 a -\n", "NOTE 3 b -\n"),
    ("a letter of beyond the list", "NOTE 5 a qty=0", "NOTE 8 a qty=0"),
    ("a letter's event that isn't canonical", "NOTE 5 a qty=0", "NOTE 5 a qty=00"),
    ("letters over what was asked for", "NOTE 3 b price=1\n", "NOTE 3 b price=1\nNOTE 5 b qty=0\n", "END 1\nOK 4", "END 2\nOK 4", "NOTE 5 b qty=0\nEND 1\nBAD", "END 0\nBAD"),
    ("an END of another number", "END 3", "END 2"),
    ("a letter in no FETCH", "LIST 5 1 a", "NOTE 5 a qty=0\nLIST 5 1 a"),
]

# legal where memory is wanting and readers are refused, and only there
SCARCE = [
    ("a HELD", "OK 5\n", "HELD 5\n"),
    ("a NOMEM", "HIT 2 2 o a", "NOMEM"),
    ("a NOMEM to a DUMP", "ROW o price < 5\nROW a all\nROW b all\n# DUMP 5 3", "NOMEM"),
    ("no silent leave", "BYE 2 3\n", "", "== LOG 7", "== LOG 6"),
    ("a SHUT", "HIT 2 2 o a", "SHUT"),
    ("a SHUT to a TAIL", "AT 1 SUB 1 0 a all\nAT 2 SUB 2 0 b price >= 1\nTAILED 5 2", "SHUT"),
]
# legal anyway
ALIKE = [
    ("a HIT of earlier", "SENT 3 2 1\n", "SENT 2 1 1\n", "SENT 3 1 0", "SENT 2 1 0", "NOTE 3 a price=1\nNOTE 3 a -", "NOTE 2 a price=1\nNOTE 2 a -", "NOTE 3 b price=1\nEND 1", "END 0"),
    ("another cost", "COST 5 1 3", "COST 5 12 195"),
    ("leaves in another order", "BYE 6", "BYE 7", "BYE 1 1\nBYE 2 3\n", "BYE 2 3\nBYE 1 1\n"),
]


class Server:
    """Sessions in a random order over one list; reads may lag behind it, as far as their session hasn't seen more."""

    def __init__(self, opening, files, seed):
        self.random, self.changes, self.rows = random.Random(seed), [], []
        self.left = [legal.lines_of(file) for file in files]
        self.told, self.seen = [[] for _ in files], [len(opening)] * len(files)
        self.serials, self.boxes = [0] * len(files), [[] for _ in files]
        for place, (name, condition) in enumerate(opening):
            self.kept(0, place, name, condition)

    def kept(self, session, serial, name, condition):
        self.rows.append([len(self.changes), None, session, name, condition])
        self.changes.append(f"SUB {session} {serial} {name} {model.condition_text(condition)}")

    def live(self, n):
        return [row for row in self.rows if row[0] < n and (row[1] is None or row[1] >= n)]

    def run(self):
        going = list(range(len(self.left)))
        while going:
            mine = self.random.choice(going)
            if not self.left[mine]:
                self.change(mine, "BYE")
            if not self.left[mine] or not self.step(mine, self.left[mine].pop(0)):
                going.remove(mine)
        told = [f"== {mine + 1}\n" + "".join(line + "\n" for line in told) for mine, told in enumerate(self.told)]
        return "".join(told) + f"== LOG {len(self.changes)}\n" + "".join(change + "\n" for change in self.changes)

    def change(self, mine, command, *words):
        for row in self.live(len(self.changes)):
            if row[2] == mine + 1 and (command == "BYE" or row[3] in words):
                row[1] = len(self.changes)
        self.changes.append(" ".join([command, str(mine + 1), str(self.serials[mine]), *words]))
        self.serials[mine] += 1
        self.seen[mine] = len(self.changes)

    def step(self, mine, line):
        """Answers the line; false where the session has ended."""
        command, said = legal.reading(line)
        told = self.told[mine]
        if said is None:
            told.append(command)
        elif command == "QUIT":
            self.change(mine, "BYE")
            told.append(f"BYE {len(self.changes)}")
        elif command in ("SUB", "UNSUB"):
            told.append(self.asked(mine, command, *said))
        elif command == "FETCH":
            given, self.boxes[mine] = self.boxes[mine][: said[0]], self.boxes[mine][said[0] :]
            told += [*given, f"END {len(given)}"]
        else:
            self.seen[mine] = self.random.randint(self.seen[mine], len(self.changes))
            told += self.read(mine, command, said)
        return command != "QUIT"

    def asked(self, mine, command, name, text=None):
        found = [row for row in self.live(len(self.changes)) if row[3] == name]
        if command == "SUB" and not found:
            condition = model.judged(model.Reader(model.tokens(text)).condition(), False)
            self.kept(mine + 1, self.serials[mine], name, condition)
            self.serials[mine] += 1
        elif command == "UNSUB" and found and found[0][2] == mine + 1:
            self.change(mine, "UNSUB", name)
        else:
            self.seen[mine] = len(self.changes)
            refusal = "NONE" if not found else "DUP" if command == "SUB" else "OTHER"
            return " ".join([refusal, str(len(self.changes)), *[str(row[0]) for row in found]])
        self.seen[mine] = len(self.changes)
        return f"OK {len(self.changes)}"

    def read(self, mine, command, said):
        n = self.seen[mine]
        rows = self.live(n)
        if command == "TAIL":
            told = [f"AT {place} {self.changes[place]}" for place in range(n) if said[0] <= place < sum(said)]
            return [*told, f"TAILED {n} {len(told)}"]
        if command == "DUMP":
            return [*[f"ROW {row[3]} {model.condition_text(row[4])}" for row in rows], f"# DUMP {n} {len(rows)}"]
        if command == "LIST":
            names = [row[3] for row in rows if row[2] == mine + 1]
            return [" ".join(["LIST", str(n), str(len(names)), *names])]
        hits = [row for row in rows if model.satisfies(said, row[4])]
        if command == "PUB":
            return [" ".join(["HIT", str(n), str(len(hits)), *[row[3] for row in hits]])]
        if command == "COST":
            return [f"COST {n} 1 {len(hits)}"]
        put = 0
        for row in hits:
            if row[2] and len(self.boxes[row[2] - 1]) < model.BOX:
                self.boxes[row[2] - 1].append(f"NOTE {n} {row[3]} {model.event_text(said)}")
                put += 1
        return [f"SENT {n} {put} {len(hits) - put}"]


def refusal(opening, files, output, **how):
    try:
        legal.judge(opening, files, output.encode(), **how)
    except legal.Illegal as why:
        return str(why)
    return None


def edited(output, edits):
    for old, new in zip(edits[::2], edits[1::2]):
        if output.count(old) != 1:
            sys.exit(f"FAILED: {old!r} stands {output.count(old)} times in {output}")
        output = output.replace(old, new)
    return output


def lines_edited(output):
    """The output with each of its lines left out or said twice; a log's length is put right."""
    lines = output.split("\n")[:-1]
    head = next(at for at, line in enumerate(lines) if line.startswith("== LOG"))
    for at in range(len(lines)):
        for how, part in (("left out", []), ("said twice", [lines[at]] * 2)):
            now = lines[:at] + part + lines[at + 1 :]
            if at > head:
                now[head] = f"== LOG {len(now) - head - 1}"
            yield f"line {at + 1}, {lines[at][:100]!r}, {how}", "".join(line + "\n" for line in now)


def worked():
    """Judges the output worked by hand, and edits of it; how many are refused."""
    model.SCHEMA[:] = legal.schema_of(SCHEMA)
    opening, _ = model.table(OPENING)
    for name, *edits in [("no edit",), *ALIKE]:
        why = refusal(opening, FILES, edited(OUTPUT, edits))
        require(why is None, f"refused, with {name}: {why}")
    for name, *edits in SCARCE:
        wrong = edited(OUTPUT, edits)
        require(refusal(opening, FILES, wrong), f"legal with ample memory, with {name}")
        why = refusal(opening, FILES, wrong, is_ample=False, is_shut=True)
        require(why is None, f"refused, with {name}: {why}")
    first, second, log = OUTPUT.split("== ")[1:]
    swapped = f"== 1{second[1:]}== 2{first[1:]}== {log}"
    for name, *edits in [*EDITS, ("transcripts in each other's place", OUTPUT, swapped)]:
        why = refusal(opening, FILES, edited(OUTPUT, edits))
        require(why, f"legal, with {name}")
        if "--why" in sys.argv:
            print(f"{name}: {why}")
    return len(EDITS) + 1


def served(seed):
    """Judges a random output, and edits at each of its lines; how many are refused."""
    lines = model.Lines(seed)
    opening = model.table(lines.load_file(0))[0] if seed % 3 == 0 else []
    if len({name for name, _ in opening}) < len(opening):
        opening = []
    files = ["".join(lines.line(3) + "\n" for _ in range(25)) + "QUIT\nLIST" * (seed % 2) for _ in range(1 + seed % 4)]
    files = [file.encode() for file in files]
    output = Server(opening, files, seed).run()
    why = refusal(opening, files, output)
    require(why is None, f"refused: {why}: {output}")
    count = 0
    for count, (name, wrong) in enumerate(lines_edited(output), 1):
        require(refusal(opening, files, wrong), f"legal, with {name}: {output}")
    return count


def require(holds, text):
    if not holds:
        sys.exit(f"FAILED: {text}")


def main():
    wide = list(model.SCHEMA)
    refused = worked()
    model.SCHEMA[:] = wide
    refused += sum(served(seed) for seed in range(SEEDS))
    print(f"legal: {1 + len(ALIKE) + SEEDS} outputs, {len(SCARCE)} where memory is wanting, and {refused} that are refused")
