"""What the sources have that pages name: definitions, functions, clauses, edits, limits, commands."""
import os
import re
from functools import cached_property, lru_cache
from pathlib import Path

IDENTIFIER = re.compile(r"[A-Za-z_][A-Za-z0-9_]*")
# an item with its name, or the head of a clause with its name
CLAUSE = re.compile(r"^ *(?:pub(?:\([a-z]+\))? )?(?:(fn|struct|enum|trait|impl)\b(?:<.*?>)? (?:.* for )?(\w+)|(?:ensures|requires|ghost)(?: (\w+))? *[:={])", re.M)
# a public definition with the lines that are indented below it, and the name of a field or constructor there
DEFINITION = re.compile(r"^( *)(?:abbrev )?pub (?:record |data )?(\w+)(.*\n(?:(?:\1 +.*)?\n)*)", re.M)
FIELD = re.compile(r"^ +(?:pub )?(\w+) :", re.M)
PAGE = re.compile(r"(?<![\w./-])docs/[\w./-]*\.md")
PICTURES = (".svg", ".png")
OTHER_SOURCES = ["justmeadow", "crates.txt", "HANDLES", ".ci", "bench", "completion", "examples", "planted", "tests", "tools"]


@lru_cache(maxsize=None)
def text_of(file):
    """What a file holds, or nothing where there is none."""
    return Path(file).read_text(encoding="utf-8", errors="replace") if Path(file).is_file() else ""


@lru_cache(maxsize=None)
def all_below(place):
    """A file, or each file of a folder, but for what a build left in a folder `out`."""
    if place.is_file():
        return [place]
    found = []
    for folder, folders, files in os.walk(place):
        folders[:] = sorted(it for it in folders if it not in ("out", "__pycache__"))
        found += [Path(folder) / it for it in sorted(files)]
    return found


def files_below(place, *endings):
    return [it for it in all_below(place) if not endings or it.suffix in endings]


class Edit:
    """A wrong body: lines `file: F`, `old: TEXT`, `new: TEXT`, of which pairs may follow one another."""

    def __init__(self, file, crate):
        self.name, self.crate = file.stem, crate
        self.steps, place = [], ""
        for line in text_of(file).splitlines():
            key, _, text = line.partition(": ")
            if key == "file":
                place = text
            elif key == "old":
                self.steps.append([place, text, ""])
            elif key == "new":
                self.steps[-1][2] = text

    @cached_property
    def misfit(self):
        """The first of its old texts that doesn't stand exactly once in its file, or none."""
        if not self.steps:
            return "it has no step"
        texts = {}
        for place, old, new in self.steps:
            file = self.crate / place
            text = texts.get(place, text_of(file))
            if text.count(old) != 1:
                return f"'{old.strip()}' stands {text.count(old)} times in {place}"
            texts[place] = text.replace(old, new)
        return None


class Sources:
    def __init__(self, top):
        self.top = Path(top)
        self.crates_folder = self.top / "crates"

    @cached_property
    def crates(self):
        return re.findall(r"^([a-z]\w*).*?:", text_of(self.top / "crates.txt"), re.M)

    @cached_property
    def rust(self):
        return {it: text_of(it) for it in files_below(self.crates_folder, ".rt")}

    @cached_property
    def words(self):
        """Every word of every source, script and example, and the names of their files."""
        files = files_below(self.crates_folder, ".rt", ".antt", ".txt", ".edit")
        for place in OTHER_SOURCES:
            files += files_below(self.top / place)
        files = [it for it in files if it.parent != self.top / "tests/docs"]
        found = {it.stem for it in files}
        for it in files:
            if it.suffix not in PICTURES:
                found.update(IDENTIFIER.findall(text_of(it)))
        return found

    @cached_property
    def pages_named(self):
        """Each page that a file of the code, a script or an example names, with that file."""
        files = [self.top / "justmeadow"]
        for place in ("crates", "bench", "completion", "examples", "planted", "tests", "tools"):
            files += files_below(self.top / place)
        files = [it for it in files if it.suffix not in PICTURES and it.name != "RESULTS.md" and it.parent != self.top / "tests/docs"]
        return [(str(it.relative_to(self.top)), page) for it in files for page in PAGE.findall(text_of(it))]

    @cached_property
    def definitions(self):
        """For each definition, the names of its fields or constructors, and the words that it cites."""
        found = {}
        for file in files_below(self.crates_folder, ".antt"):
            if "specs" in file.parts:
                for _, name, body in DEFINITION.findall(text_of(file)):
                    fields, cited = found.setdefault(name, (set(), set()))
                    fields.update(FIELD.findall(body))
                    cited.update(IDENTIFIER.findall(body))
        return found

    @lru_cache(maxsize=None)
    def defines(self, file, name):
        """Whether a module of definitions has a public one of this name, or a public constructor or field."""
        return re.search(rf"^ *([a-z]+ )*pub .*(?<!\w){name}(?!\w)", text_of(file), re.M) is not None

    @lru_cache(maxsize=None)
    def has_item(self, place, name):
        """Whether a source file, or one of a folder, has the function, or the type, of this name."""
        item = "(struct|trait|enum)" if name[0].isupper() else "fn"
        return any(re.search(rf"\b{item} {name}\b", text_of(it)) for it in files_below(place, ".rt"))

    @cached_property
    def contracts(self):
        """For each function and each type, the names of the clauses in its contracts, and the definitions that these cite. A type has
        its functions' too, and their names."""
        clauses, cited = {}, {}
        for text in self.rust.values():
            owner = function = ""
            heads = list(CLAUSE.finditer(text))
            for head, after in zip(heads, [it.start() for it in heads[1:]] + [len(text)]):
                kind, name, clause = head.groups()
                if kind == "fn":
                    function = name
                elif kind:
                    owner = name
                said = IDENTIFIER.findall(text[head.end() : min(after, head.end() + 1000)]) if not kind else []
                for it in (owner, function):
                    clauses.setdefault(it, set()).update(filter(None, [clause, function]))
                    cited.setdefault(it, set()).update(said)
        return clauses, cited

    @lru_cache(maxsize=None)
    def parts(self, name):
        """What a page may name of a function, a type or a definition: its clauses, and the fields of definitions that these cite, one
        by way of another at most."""
        clauses, cited = self.contracts
        found, ahead = set(clauses.get(name, ())), {name, *cited.get(name, ())}
        for _ in range(2):
            known = [self.definitions[it] for it in ahead if it in self.definitions]
            found.update(*(fields for fields, _ in known))
            ahead = set().union(*(words for _, words in known))
        return found

    @cached_property
    def limits(self):
        text = text_of(self.crates_folder / "be_base/src/limits.rt")
        return {name: int(value) for name, value in re.findall(r"pub const (\w+): \w+ = (-?\d+);", text)}

    @cached_property
    def codes(self):
        """The exit codes of the program, and the script's own."""
        text = text_of(self.crates_folder / "be_server/specs/Status.antt")
        return {int(code) for code in re.findall(r"^code_of .*= (\d+)$", text, re.M)} | {1}

    @cached_property
    def commands(self):
        """The commands that the program takes, by the table of its words."""
        return set(re.findall(r'word = codes "(\w+)"', text_of(self.crates_folder / "be_command_line/specs/Words.antt")))

    @cached_property
    def requests(self):
        """The words with which a line of a session may begin."""
        return set(re.findall(r'command \(codes "([A-Z]+)"\)', text_of(self.crates_folder / "be_protocol/specs/Readings.antt")))

    @cached_property
    def script(self):
        return text_of(self.top / "justmeadow")

    @cached_property
    def script_words(self):
        """The words of the script itself, each with two dashes."""
        return set(re.findall(r"^ *(--[a-z]+)\)", self.script, re.M)) | set(re.findall(r"\./justmeadow (--[a-z]+)", self.script))

    @lru_cache(maxsize=None)
    def edits(self, folder):
        """The edits of a folder that has one folder a crate, by crate; must-fail edits stand in the crates themselves."""
        inner = "must-fail" if folder == "crates" else ""
        found = {}
        for it in sorted((self.top / folder).glob(f"*/{inner}/*.edit" if inner else "*/*.edit")):
            crate = it.relative_to(self.top / folder).parts[0]
            found.setdefault(crate, []).append(Edit(it, self.crates_folder / crate))
        return found
