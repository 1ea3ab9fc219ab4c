"""Numbers that pages print are those of the sources, or of what was measured."""
import re

from pages import SPAN, rows_of

NUMBER = re.compile(r"(?<![\w.])\d[\d,]*(?:\.\d+)?")
# a row of a table of limits, and the constant that it prints; the first that fits counts
LIMITS = [
    (r"line of a feed", "FEED_LINE_BYTES"),
    (r"bytes of a (session's )?line|^of a line", "LINE_BYTES"),
    (r"session's input|input gave", "SOURCE_BYTES"),
    (r"bytes of a name", "NAME_BYTES"),
    (r"bytes of a (file|schema)|file over", "FILE_BYTES"),
    (r"letters or changes", "ASKED"),
    (r"milliseconds that a line waits", "WAIT_MILLIS"),
    (r"letters in a box", "BOX_LETTERS"),
    (r"symbols", "SYMBOLS"),
    (r"range of an attribute|^numbers", "FIRST_INT LAST_INT"),
    (r"attributes", "ATTRIBUTES"),
    (r"predicates", "PREDICATES"),
    (r"values in a set", "SET_VALUES"),
    (r"until (a )?.?serve.? ends|takes until it ends", "LINKS"),
    (r"seats|at once|files of .?drill", "SEATS"),
    (r"rounds", "ROUNDS"),
    (r"changes in a run", "LOG_CHANGES"),
    (r"subscriptions of .?gen", "GENERATED_SUBSCRIPTIONS"),
    (r"events of .?gen", "GENERATED_EVENTS"),
]
# other sentences that print a limit, and its constant
SENTENCES = [
    (r"file (?:is )?over ([\d,]+) bytes", "FILE_BYTES"),
    (r"input over ([\d,]+) bytes", "SOURCE_BYTES"),
    (r"(2\^\d+) bytes", "SOURCE_BYTES"),
    (r"at most (2\^\d+) entries", "LOG_CHANGES"),
    (r"connections \(1 to ([\d,]+)\)", "LINKS"),
    (r"at once \(1 to ([\d,]+)\)", "SEATS"),
    (r"times \(0 to ([\d,]+)\)", "ROUNDS"),
    (r"subscriptions \(at most ([\d,]+)\)", "GENERATED_SUBSCRIPTIONS"),
    (r"events \(at most ([\d,]+)\)", "GENERATED_EVENTS"),
    (r"from 0 to ([\d,]+); `place`", "ASKED"),
    (r"`ms` from 0 to ([\d,]+)", "WAIT_MILLIS"),
    (r"name of 1 to (\d+) bytes", "NAME_BYTES"),
    (r"1 to (\d+) bytes under which", "NAME_BYTES"),
    (r"1 to (\d+) rising", "SET_VALUES"),
    (r"box(?:es)? (?:holds|of) ([\d,]+)", "BOX_LETTERS"),
    (r"lea(?:f has|ves have) at most (\d+) rows", "LEAF_ROWS"),
    (r"with more than (\d+) rows", "LEAF_ROWS"),
    (r"at least (\d+) more", "SHIFT_GAIN"),
]


def value_of(text):
    """A number as pages write it: with commas, or as a power of two."""
    power = re.fullmatch(r"(-?)2\^(\d+)(-1)?", text)
    if power:
        return (-1 if power[1] else 1) * 2 ** int(power[2]) - (1 if power[3] else 0)
    return int(text.replace(",", ""))


def check_limits(book, sources, report):
    """Each row of the tables of limits prints the constant of its limit, and so do other sentences."""
    for path in ("README.md", "docs/use/protocol.md"):
        rows = rows_of(book.page(path).section("Limits"))
        report.see(len(rows) >= 5, f"{path} has no table of limits")
        for what, most, *_ in rows:
            for said, numbers in zip(what.split("; "), most.split("; ")):
                values = [value_of(it) for it in re.findall(r"-?2\^\d+(?:-1)?|-?\d[\d,]*", numbers)]
                if values:
                    names = next((names for pattern, names in LIMITS if re.search(pattern, said)), "")
                    report.see(values == [sources.limits.get(it) for it in names.split()], f"{path} prints '{said}: {numbers}', which isn't {names or 'a limit that is known'}")
    told = {path: page.text for path, page in book.pages.items()} | {"the script justmeadow": sources.script}
    for path, text in told.items():
        for pattern, name in SENTENCES:
            for number in re.findall(pattern, re.sub(r"\s+", " ", text)):
                report.see(value_of(number) == sources.limits[name], f"{path} prints {number}, which isn't {name}")


def check_codes(book, sources, report):
    """Every exit code has a row on the page of commands, and no other has."""
    rows = rows_of(book.page("docs/use/commands.md").section("Exit codes"))
    codes = {int(row[0]) for row in rows if row[0].isdigit()}
    report.see(codes == sources.codes, f"docs/use/commands.md tells of the exit codes {sorted(codes)}, and there are {sorted(sources.codes)}")
    usage = sources.script.partition("\nExit codes:")[2].partition("\nUSAGE")[0]
    told = {int(code) for line in re.findall(r"^    ([\d, ]+?)  ", usage, re.M) for code in line.split(",")}
    report.see(told == sources.codes, f"the script justmeadow tells of the exit codes {sorted(told)}, and there are {sorted(sources.codes)}")


def check_figures(book, sources, report):
    """Each number of README's figures stands among what was measured."""
    figures = book.page("README.md").between("figures", "end of figures")
    report.see(figures, "README.md has no block of figures")
    measured = {it.replace(",", "") for it in NUMBER.findall(book.page("bench/RESULTS.md").text)}
    for number in NUMBER.findall(re.sub(r"\]\([^)]*\)", "", SPAN.sub("", figures))):
        report.see(number.replace(",", "") in measured, f"README.md prints the figure {number}, which bench/RESULTS.md doesn't have")


def check_results(book, sources, report):
    """The page of results tells of which commit, day and machine it is."""
    page = book.page("bench/RESULTS.md")
    report.see(page.text, "bench/RESULTS.md isn't there")
    for said in ("commit", "processors"):
        report.see(said in page.text, f"bench/RESULTS.md doesn't tell the {said}")
    report.see(re.search(r"\b20\d\d-\d\d-\d\d\b", page.text), "bench/RESULTS.md has no date")
