#!/usr/bin/env python3
"""Lists the definitions and lemmas of crates/*/specs and crates/*/proofs that nothing cites, and the definitions of specs/ that no
contract rests on, which belong into proofs/. It fails on any that isn't excepted.

Cited is what a source (src/*.rt) names, what an answer to a goal names, and what a cited definition or lemma names. So a lemma that
only itself or an uncited lemma names is uncited too. An import is no use of what it takes, and a word of a document is none. No tactic
finds a lemma of these crates by its form: each takes the lemmas that its call or its attribute lists. So what is listed here can go.

    uncited.py            what isn't excepted, and how many crates passed and failed
    uncited.py --all      what is excepted, too
"""
import glob, os, re, sys, tempfile

TOP = os.path.dirname(os.path.dirname(os.path.abspath(__file__)))

# Files of worked examples. Each is a statement that the check computes; nobody has to cite it.
EXAMPLES = re.compile(r"/proofs/\w*Example\w*\.antt$")

# What a crate has for now, and is to lose when it is next worked on.
FOR_NOW = {
    "be_demand": "StillCounts IsCounting says_hit",
    "be_desk": "AreApart",
    "be_io": "IsReading",
    "be_mail": "AreRowsUpTo entry_at IsSum AreSums",
    "be_protocol": "new_reader LinesGoOn IsGoingOn",
    "be_session": "note_lines Draws FetchesSo IsLegalSoFar RunsOver BoardServes Serves",
}

WORD = re.compile(r"[^\s(){}\[\],;«»]+")
HEAD = re.compile(r"((?:(?:abbrev|unfoldable|pattern|pub|record|data|ruleset|syntax) )*)([^\s(){}\[\],;:]+)")
SECTION = re.compile(r"(module |(abbrev |unfoldable )?mutual\b)")


def bare(line):
    """A line without its comment."""
    found = re.search(r"(^|\s)--", line)
    return line[:found.start()] if found else line


def depth_of(line):
    return len(line) - len(line.lstrip(" "))


def parts_of(name):
    """What stands in a text that uses the name: itself, or the marks of an operator."""
    return [part for part in name.split("◌") if part] if "◌" in name else [name]


class Block:
    """A declaration, or an answer to a goal, which has no name here: where it stands, and what it says."""

    def __init__(self, name, first, said):
        self.name, self.first, self.last, self.said = name, first, first, said

    def goes_on(self, number, line):
        self.last = number
        self.said.append(line)


class Importing:
    """What a file imports: items by their names here, and modules."""

    def __init__(self, path, top):
        self.path = os.path.relpath(path, top)
        self.crate = self.path.split("/")[1]
        self.items, self.modules = {}, {}

    def take_import(self, text):
        text = re.sub(r"^(pub )?use ", "", " ".join(text.split()))
        opened = re.match(r"(\S+)\.\{(.*)\}$", text)
        if opened:
            for item in filter(None, (item.strip() for item in opened.group(2).split(","))):
                there, _, here = item.partition(" as ")
                self.items[here or there] = (opened.group(1), there)
        else:
            path, _, here = text.partition(" as ")
            self.modules[here or path.rsplit(".", 1)[-1]] = path


class File(Importing):
    """A file of specs/ or proofs/: its declarations, in order."""

    def __init__(self, path, top):
        super().__init__(path, top)
        parts = self.path[:-len(".antt")].split("/")
        self.module = ".".join(["Rattle"] + parts[1:])
        # proofs/MODULE/FUNCTION/ answers the goals of a function: what it makes public, and the invariants of its loops
        self.is_answer = parts[2] == "proofs" and len(parts) > 4
        self.lines = [bare(line) for line in open(path, encoding="utf-8").read().split("\n")]
        self.blocks = []
        self.read()
        self.marks = {}
        for name in [block.name for block in self.blocks if block.name] + list(self.items):
            if "◌" in name:
                for part in parts_of(name):
                    self.marks.setdefault(part, []).append(name)

    def read(self):
        at, block = 0, None
        sections = []       # the depth of a section's declarations, and its head, which each of them says too
        while at < len(self.lines):
            line = self.lines[at]
            at += 1
            if not line.strip():
                continue
            while sections and depth_of(line) < sections[-1][0]:
                sections.pop()
                block = None
            base, above = sections[-1] if sections else (0, "")
            text = line[base:]
            if text[0] in " )}]" or text.startswith("unfolding "):
                if block:
                    block.goes_on(at, text)
            elif text.startswith(("use ", "pub use ")):
                while "{" in text and "}" not in text:
                    text += " " + self.lines[at]
                    at += 1
                self.take_import(text)
                block = None
            elif text.startswith(("mod ", "pub mod ")):
                block = None
            elif SECTION.match(text):
                while not re.search(r"\b(where|mutual)\s*$", text):
                    text += " " + self.lines[at]
                    at += 1
                inside = next((more for more in self.lines[at:] if more.strip()), "")
                sections.append((depth_of(inside), f"{above} {text}"))
                block = None
            else:
                kinds, name = HEAD.match(text).groups()
                if not kinds and not self.has_type(at - 1, base):
                    if block and block.name and (block.name == name or "◌" in block.name and all(part in text for part in parts_of(block.name))):
                        block.goes_on(at, text)
                        continue
                    name = None
                block = Block(name, at, [text, above])
                self.blocks.append(block)

    def has_type(self, at, base):
        """Whether what begins on a line has its type before it has a body."""
        text = self.lines[at][base:]
        for more in self.lines[at + 1:at + 40]:
            if more.strip() and not more[base:].startswith(" "):
                break
            text += " " + more[base:]
        depth = 0
        for i, mark in enumerate(text):
            depth += (mark in "([{") - (mark in ")]}")
            if depth == 0 and text[i:i + 3] in (" : ", " = "):
                return text[i + 1] == ":"
        return False

    def is_answered(self, block):
        return not block.name or self.is_answer and (block.said[0].startswith("pub ") or self.path.endswith("/Invariants.antt"))


class Source(Importing):
    """A source in Rattle: what its clauses import, and its words."""

    def __init__(self, path, top):
        super().__init__(path, top)
        text = re.sub(r"//.*", "", open(path, encoding="utf-8").read())
        for line in re.findall(r"ghost use ([^;]*);", text):
            self.take_import(line)
        self.text = re.sub(r"ghost use [^;]*;", "", text)

    def has(self, name):
        return all(re.search(r"(?<![\w'\-])" + re.escape(part) + r"(?![\w'\-])", self.text) for part in parts_of(name))

    def named(self):
        """Each item that it names: imported, of an imported module, or by a path in an attribute."""
        for here, (module, name) in self.items.items():
            if self.has(here):
                yield module, name
        for here, module in self.modules.items():
            for name in re.findall(rf"\b{re.escape(here)}\.([\w'\-]+)", self.text):
                yield module, name
        for path in re.findall(r"\b\w+::(?:\w+::)*(?:proofs|specs)(?:::\w+)+|\b\w+::(?:proofs|specs)(?:::\w+)+", self.text):
            crate, *inside, name = path.split("::")
            yield ".".join(["Rattle", self.crate if crate == "crate" else crate] + inside), name


class Tree:
    """All crates below a folder."""

    def __init__(self, top):
        self.top = top
        paths = [path for part in ("specs", "proofs") for path in glob.glob(f"{top}/crates/*/{part}/**/*.antt", recursive=True)]
        self.files = {file.module: file for file in (File(path, top) for path in sorted(paths))}
        self.homes = {(file.module, block.name): (file, block) for file in self.files.values() for block in file.blocks if block.name}

    def home(self, module, name, steps=8):
        """Where an imported name is declared, through files that pass it on."""
        if (module, name) in self.homes:
            return [(module, name)]
        file = self.files.get(module)
        return self.home(*file.items[name], steps - 1) if file and steps and name in file.items else []

    def named_here(self, file, word):
        if (file.module, word) in self.homes:
            yield file.module, word
        if word in file.items:
            yield from self.home(*file.items[word])
        for operator in file.marks.get(word, []):
            yield from self.named_here(file, operator)

    def cites(self, file, block):
        for word in set(WORD.findall("\n".join(block.said))):
            path = word.strip(".").split(".")
            if path[0] == "Rattle":
                for n in range(1, len(path)):
                    yield from self.home(".".join(path[:n]), path[n])
            elif path[0] in file.modules and len(path) > 1:
                yield from self.home(file.modules[path[0]], path[1])
            yield from self.named_here(file, path[0])

    def named_by_sources(self):
        for path in glob.glob(f"{self.top}/crates/*/src/**/*.rt", recursive=True):
            for module, name in Source(path, self.top).named():
                yield from self.home(module, name)

    def named_by_answers(self):
        for file in self.files.values():
            for block in filter(file.is_answered, file.blocks):
                yield from self.cites(file, block)
                if block.name:
                    yield file.module, block.name

    def all_but(self, cited):
        """What these don't reach, by their files and lines."""
        todo, reached = list(cited), set()
        while todo:
            key = todo.pop()
            if key not in reached:
                reached.add(key)
                todo += self.cites(*self.homes[key])
        return sorted((home for key, home in self.homes.items() if key not in reached), key=lambda home: (home[0].path, home[1].first))

    def uncited(self):
        return self.all_but([*self.named_by_sources(), *self.named_by_answers()])

    def beside_contracts(self):
        """The definitions of specs/ that no contract rests on."""
        return [(file, block) for file, block in self.all_but(self.named_by_sources()) if "/specs/" in file.path]


# A crate of which `lost`, `loop` and `only_lost` are uncited (`loop` cites itself, `lost` the other), and `beside` is for a proof alone.
SAMPLE = {
    "src/lib.rt": "ghost use Rattle.it.specs.It.{is, ◌~◌};\npub fn f() ensures { is ~ is } {}\n",
    "specs/It.antt": "abbrev pub is : ℕ\nis = 1\n\nabbrev pub ◌~◌ : ℕ → ℕ → Type 0\na ~ b = other a\n\nabbrev pub other : ℕ → Type 0\nother a = ℕ\n\nabbrev pub beside : ℕ\nbeside = 2\n",
    "proofs/It.antt": "use Rattle.it.specs.It.{is, beside}\n\npub lost : ℕ -- kept\nlost = only_lost is\n\nmodule _ (a : ℕ) where\n  only_lost : ℕ\n  only_lost = a\n"
    "  pub loop : ℕ\n  loop = loop\n  pub kept : ℕ\n  kept = a + beside\n",
    "proofs/lib/f/Answers.antt": "use Rattle.it.proofs.It.{kept, lost}\n\npub returns : goal.returns\nreturns c = kept c\n",
}


def sees_sample():
    """Whether what is uncited in the sample is found, and nothing else."""
    with tempfile.TemporaryDirectory() as top:
        for path, text in SAMPLE.items():
            os.makedirs(os.path.dirname(f"{top}/crates/it/{path}"), exist_ok=True)
            with open(f"{top}/crates/it/{path}", "w", encoding="utf-8") as file:
                file.write(text)
        tree = Tree(top)
        found = [sorted(block.name for _, block in homes) for homes in (tree.uncited(), tree.beside_contracts())]
        return found == [["loop", "lost", "only_lost"], ["beside"]]


def main():
    if not sees_sample():
        sys.exit("FAIL: it doesn't see what is uncited in its sample")
    tree = Tree(TOP)
    everything = "--all" in sys.argv[1:]
    failed = set()
    uncited = tree.uncited()
    found = [("nothing cites", home) for home in uncited] + [("no contract rests on", home) for home in tree.beside_contracts() if home not in uncited]
    for fault, (file, block) in found:
        excepted = EXAMPLES.search("/" + file.path) or block.name in FOR_NOW.get(file.crate, "").split()
        if not excepted:
            failed.add(file.crate)
        if everything or not excepted:
            print(f"{'' if excepted else 'FAIL: '}{file.path}:{block.first}: {fault} {block.name}, of {block.last - block.first + 1} lines")
    passed = {file.crate for file in tree.files.values()} - failed
    print(f"{len(passed)} passed, {len(failed)} failed")
    sys.exit(1 if failed else 0)


if __name__ == "__main__":
    main()
