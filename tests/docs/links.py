"""Links, paths, crates and commands that pages name are there."""
import re
from os.path import normpath
from pathlib import PurePosixPath

from pages import PLACEHOLDER
from sources import text_of

PATH = re.compile(r"(?<![\w./-])(?:crates|docs|bench|tests|tools|examples|completion|dist|planted|\.ci)/[\w.*/-]*")
COMMAND = re.compile(r"\./justmeadow +(\S+)")
# of the machine on which something was written
MACHINE = re.compile(r"(?<![\w.])/(?:work|tmp|root|home)\b[\w./-]*")
# what stands for something that is still to be written
UNWRITTEN = re.compile(r"@@\w*|\bTODO\b|\bTBD\b|\bTo be replaced\b")
# a task, a paper, or a place on the network that the repository doesn't stand on
OUTSIDE = re.compile(r"\bissue #?\d+|\b[TD]\d\.\d+\b|\bpaper \d+|\b[\w.-]*(?:crates\.io|pypi\.org|npmjs\.\w+|golang\.org)\b", re.I)


def check_links(book, sources, report):
    """Each link leads to a file, and its anchor to a heading there."""
    for page in book.pages.values():
        for link in page.links:
            if re.match(r"[a-z]+:", link):
                continue
            path, _, anchor = link.partition("#")
            target = (book.top / page.path).parent / path if path else book.top / page.path
            report.see(target.exists(), f"{page.path} has a link to {path}, which isn't there")
            if anchor and target.exists():
                name = normpath(PurePosixPath(page.path).parent / path) if path else page.path
                report.see(anchor in book.page(name).anchors, f"{page.path} has a link to {link}, and {name} has no such heading")


def is_there(top, path):
    path = path.rstrip(".").rstrip("/")
    return any(top.glob(path)) if "*" in path else (top / path).exists()


def paths_in(text):
    """The paths from the top that a text names; those of a build, and those with a placeholder, aren't looked for."""
    return [it for it in PATH.findall(text) if "/out/" not in f"{it}/" and not PLACEHOLDER.search(it)]


def check_paths(book, sources, report):
    for page in book.pages.values():
        for path in paths_in(page.text):
            report.see(is_there(book.top, path), f"{page.path} names {path}, which isn't there")
        for span in page.spans:
            if re.fullmatch(r"(?:src|specs|proofs)/[\w./]+", span) and not PLACEHOLDER.search(span):
                places = [f"crates/*/{span}{ending}" for ending in ("", ".antt", ".rt")]
                report.see(any(is_there(book.top, it) for it in places), f"{page.path} names {span}, which no crate has")
    for path in paths_in(sources.script):
        report.see(is_there(book.top, path), f"the script justmeadow names {path}, which isn't there")


def check_pages_in_sources(book, sources, report):
    """Sources, scripts and examples name no page that has moved."""
    for file, path in sources.pages_named:
        report.see((book.top / path).exists(), f"{file} names {path}, which isn't there")


def check_crates(book, sources, report):
    for page in book.pages.values():
        for span in page.spans:
            if re.fullmatch(r"(?:be|worked)_\w+", span):
                report.see(span in sources.crates or span in sources.words, f"{page.path} names {span}, which is no crate")
    named = set(re.findall(r"`(\w+)`", book.page("docs/develop/architecture.md").section("The crates")))
    for crate in sources.crates:
        report.see(crate in named, f"docs/develop/architecture.md has no row of the crate {crate}")


def check_commands(book, sources, report):
    """Each command is one of the program or the script, and each of these stands on the pages for users."""
    for page in book.pages.values():
        for code in page.code:
            for word in COMMAND.findall(code):
                known = word in sources.commands or word in sources.script_words or PLACEHOLDER.match(word) or word in "<>|"
                report.see(known, f"{page.path} has the command ./justmeadow {word}, which isn't there")
    for path in ("README.md", "docs/use/commands.md", "docs/justmeadow.1"):
        for command in sources.commands:
            report.see(re.search(rf"\b{command} ?\n?[A-Z.]", book.page(path).text), f"{path} has no command {command}")
    for path in ("docs/use/commands.md", "completion/justmeadow.bash"):
        for word in sources.script_words:
            report.see(re.search(rf"(?<![\w-]){word}\b", text_of(book.top / path)), f"{path} doesn't have the script's {word}")
    for command in sources.commands:
        report.see(re.search(rf"\b{command}\b", text_of(book.top / "completion/justmeadow.bash")), f"completion/justmeadow.bash has no command {command}")
    protocol = " ".join(book.page("docs/use/protocol.md").code)
    for word in sources.requests:
        report.see(re.search(rf"\b{word}\b", protocol), f"docs/use/protocol.md doesn't have the line {word}")


def check_places(book, sources, report):
    for page in book.pages.values():
        for found in MACHINE.findall(page.text):
            report.see(False, f"{page.path} names a place of a machine, {found}")
        for found in UNWRITTEN.findall(page.text):
            report.see(False, f"{page.path} has '{found}' where something is to be written")
        for found in OUTSIDE.findall(page.text):
            report.see(False, f"{page.path} names something outside of the repository, {found}")
        report.see(True, "")


def check_readme(book, sources, report):
    size = len(book.page("README.md").text.encode())
    report.see(0 < size <= 8192, f"README.md has {size} bytes, more than 8192")
    linked = {path for page in book.pages.values() for path in linked_from(page)}
    for path in book.pages:
        if path.startswith("docs/"):
            report.see(path in linked, f"no page has a link to {path}")


def linked_from(page):
    """The pages that a page has links to; that of the manual is named only."""
    if "docs/justmeadow.1" in page.text:
        yield "docs/justmeadow.1"
    for link in page.links:
        path = normpath(PurePosixPath(page.path).parent / link.partition("#")[0])
        if path != page.path:
            yield path
