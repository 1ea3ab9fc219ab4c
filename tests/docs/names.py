"""Definitions, functions, clauses and edits that pages name are there."""
import re

from pages import SPAN, rows_of

MAP = "docs/develop/architecture.md"
PROMISES = "docs/proof/promises.md"
BODIES = "docs/proof/wrong-bodies.md"
GATE = "docs/develop/gate.md"
EDITS_A_CRATE = 10
NAME = re.compile(r"[A-Za-z_]\w*(?:::\w+)*(?<!_)")
PLACE = re.compile(r"(\w+)/(?:(src)(?:/([\w/]+\.rt))?|(\w+))")
# names, and the place that stands in brackets behind them
BESIDE = re.compile(r"((?:`[\w:]+`(?:, | and )?)+) \((`\w+/[\w/.]+`)\)")
# functions, and in brackets their clauses
CARRIED = re.compile(r"((?:`[\w:]+`(?:, )?)+)(?: of (?:trait )?`\w+`)? \(([^()]*)\)")
FIELD = re.compile(r"`([a-z]\w*)` of `([A-Z]\w*)`")
REFUSED = re.compile(r"(gate|planted): ([^|;\n]*)")
OF_OWNER = re.compile(r"`([a-z]\w*)`(?= of `([\w:]+)`)")
OF_CRATE = re.compile(r"((?:`\w+`(?:,? and |, )?)+) of `(be_\w+)`")


def stands_in(sources, name, place):
    """Whether a name stands in a place as the map writes it: `crate/Module`, `crate/src` or `crate/src/file.rt`."""
    crate, source, file, module = PLACE.fullmatch(place).groups()
    folder = sources.crates_folder / crate
    name = name.rpartition("::")[2]
    if source:
        return sources.has_item(folder / "src" / (file or ""), name)
    return sources.defines(folder / f"specs/{module}.antt", name)


def exists(sources, place):
    crate, source, file, module = PLACE.fullmatch(place).groups()
    folder = sources.crates_folder / crate
    return (folder / "src" / (file or "") if source else folder / f"specs/{module}.antt").exists()


def check_beside(sources, report, page, names, place):
    if not exists(sources, place):
        report.see(False, f"{page} names {place}, which isn't there")
        return
    for name in names:
        report.see(stands_in(sources, name, place), f"{page} names {name} in {place}, which doesn't have it")


def check_map(book, sources, report):
    """Names stand in the file that the map of the crates puts beside them."""
    page = book.page(MAP)
    for heading in ("Where the main definitions stand",):
        rows = rows_of(page.section(heading))
        report.see(len(rows) > 20, f"{MAP} has no table below '{heading}'")
        for row in rows:
            for cell in row[1:]:
                names = []
                for span in SPAN.findall(cell):
                    if PLACE.fullmatch(span):
                        check_beside(sources, report, MAP, names, span)
                        names = []
                    else:
                        names.append(span)
                report.see(not names, f"{MAP} names {', '.join(names)} with no file behind it")
    for names, place in BESIDE.findall(page.prose):
        if PLACE.fullmatch(place.strip("`")):
            check_beside(sources, report, MAP, SPAN.findall(names), place.strip("`"))
    for line, is_code in page.lines:
        for place in re.findall(r"\b\w+/src/\w+\.rt\b", line) if is_code else []:
            report.see((sources.crates_folder / place).exists(), f"{MAP} names {place}, which isn't there")


def check_words(book, sources, report):
    """Each name in code on the pages for developers is one that some source has."""
    for page in book.below("docs/develop/", "docs/decisions/", "docs/proof/"):
        for span in page.spans:
            if NAME.fullmatch(span):
                for word in span.split("::"):
                    report.see(word in sources.words, f"{page.path} names {word}, which no source has")


def check_clauses(book, sources, report):
    """The clauses that the page of promises names are those of the functions before them, or parts of what these cite."""
    rows = [row for row in rows_of(book.page(PROMISES).prose) if len(row) >= 2]
    report.see(len(rows) > 50, f"{PROMISES} has no tables")
    for cell in (row[1] for row in rows):
        for word in re.findall(r"[A-Za-z_]\w*", " ".join(it for it in SPAN.findall(cell) if "/" not in it)):
            report.see(word in sources.words, f"{PROMISES} names {word}, which no source has")
        for names, inner in CARRIED.findall(cell):
            owners = [it.rpartition("::")[2] for it in SPAN.findall(names) + re.findall(r"`([A-Z]\w*)`", inner)]
            has = set().union(*(sources.parts(it) for it in owners))
            for clause in re.findall(r"(?:^|[,;] )`([a-z]\w*)`(?! of)", inner):
                report.see(clause in has, f"{PROMISES} names the clause {clause} of {names}, which doesn't have it")
        for part, owner in FIELD.findall(cell):
            report.see(part in sources.parts(owner), f"{PROMISES} names {part} of {owner}, which doesn't have it")


def check_bodies(book, sources, report):
    """Each edit that the page of wrong bodies names is there, and each edit that is there has its name on it."""
    text = book.page(BODIES).prose
    named = {"gate": set(), "planted": set()}
    for place, said in REFUSED.findall(text):
        for names, crate in OF_CRATE.findall(said):
            named[place] |= {(crate, name) for name in SPAN.findall(names)}
    for place, folder in (("gate", "crates"), ("planted", "planted")):
        there = {(crate, edit.name) for crate, edits in sources.edits(folder).items() for edit in edits}
        report.see(named[place] or not there, f"{BODIES} names no edit of '{place}'")
        for crate, name in sorted(named[place]):
            report.see((crate, name) in there, f"{BODIES} names the edit {name} of {crate} ({place}), which isn't there")
        if "others stand by their names alone" not in text:
            for crate, name in sorted(there):
                report.see((crate, name) in named[place], f"{BODIES} doesn't name the edit {name} of {crate} ({place})")


def check_refusals(book, sources, report):
    """The clauses that the page of wrong bodies names are those of the functions or definitions behind them."""
    for clause, owner in OF_OWNER.findall(book.page(BODIES).prose):
        if not owner.startswith("be_") or owner in sources.contracts[0]:
            name = owner.rpartition("::")[2]
            report.see(clause in sources.parts(name), f"{BODIES} names {clause} of {owner}, which doesn't have it")


def check_edits(book, sources, report):
    """Each edit fits the sources, and stands where the page of the gate says."""
    listed = set(re.findall(r"`(be_\w+)`", book.page(GATE).section("Edits").partition("planted/")[0]))
    in_gate = sources.edits("crates")
    report.see(set(in_gate) == listed, f"{GATE} lists must-fail edits of other crates than have some: {', '.join(sorted(set(in_gate) ^ listed))}")
    for folder in ("crates", "planted"):
        for crate, edits in sources.edits(folder).items():
            report.see(folder == "planted" or len(edits) <= EDITS_A_CRATE, f"{crate} has {len(edits)} must-fail edits, more than {EDITS_A_CRATE}")
            report.see(folder == "crates" or crate not in listed, f"{crate} has planted edits and must-fail edits")
            for edit in edits:
                report.see(edit.misfit is None, f"the edit {edit.name} of {crate} doesn't fit: {edit.misfit}")
