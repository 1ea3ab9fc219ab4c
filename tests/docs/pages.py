"""The pages that are checked, and what stands in them: headings, links, words in code, tables."""
import re
from functools import cached_property
from pathlib import Path

# placeholders in commands and paths, as NAME in crates/NAME
PLACEHOLDER = re.compile(r"\b(?!README|DECISIONS|RESULTS|HANDLES)[A-Z]{3,}\b")
PAGES = ["*.md", "docs/**/*.md", "docs/*.1", "bench/*.md", "planted/*.md", "examples/**/*.md"]
LINK = re.compile(r"\]\(([^)\s]+)\)")
SPAN = re.compile(r"`([^`]+)`")


def page_paths(top):
    """README, all pages below docs/, and those that stand beside what they speak of."""
    found = [it for pattern in PAGES for it in sorted(top.glob(pattern))]
    return [str(it.relative_to(top)) for it in found if it.is_file()]


class Page:
    def __init__(self, path, text):
        self.path = path
        # the page of the manual writes a hyphen as \-
        self.text = text.replace("\\-", "-") if path.endswith(".1") else text

    @cached_property
    def lines(self):
        """Each line, and whether it stands in a block of code."""
        found, is_fenced, before = [], False, ""
        for line in self.text.splitlines():
            is_fence = line.lstrip().startswith("```")
            is_indented = line.startswith("    ") and (not before.strip() or (found and found[-1][1]))
            found.append((line, is_fence or is_fenced or is_indented))
            is_fenced ^= is_fence
            before = line
        return found

    @cached_property
    def prose(self):
        return "\n".join(line for line, is_code in self.lines if not is_code)

    @cached_property
    def code(self):
        """Each piece of code: a span in backquotes, or a line of a block."""
        blocks = [line.strip() for line, is_code in self.lines if is_code]
        return SPAN.findall(self.prose) + blocks

    @cached_property
    def spans(self):
        return SPAN.findall(self.prose)

    @cached_property
    def links(self):
        return LINK.findall(SPAN.sub("", self.prose))

    @cached_property
    def anchors(self):
        """The names under which its headings are linked to, as code forges make them."""
        found = set()
        for line in self.prose.splitlines():
            if line.startswith("#"):
                words = re.sub(r"[^\w\- ]", "", line.lstrip("#").strip().lower()).replace(" ", "-")
                found.add(words if words not in found else f"{words}-1")
        return found

    def section(self, heading):
        """What stands below a heading, up to the next one of its level or above."""
        found = re.search(rf"^(#+) {re.escape(heading)}$(.*?)(?=^#{{1,2}} |\Z)", self.prose, re.M | re.S)
        return found.group(2) if found else ""

    def between(self, mark, end):
        """What stands between two comments, of which the first begins so."""
        found = re.search(rf"<!-- {mark}[^>]*-->(.*?)<!-- {end} -->", self.text, re.S)
        return found.group(1) if found else ""


def rows_of(text):
    """The cells of each row of the tables of a text, without their heads."""
    rows = [[cell.strip() for cell in line.strip().strip("|").split("|")] for line in text.splitlines() if line.startswith("|")]
    rules = [at for at, row in enumerate(rows) if all(re.fullmatch(":?-+:?", cell) for cell in row)]
    return [row for at, row in enumerate(rows) if at not in rules and at + 1 not in rules]


class Book:
    """All pages of a repository, by their paths from its top."""

    def __init__(self, top):
        self.top = Path(top)
        self.pages = {path: Page(path, (self.top / path).read_text(encoding="utf-8")) for path in page_paths(self.top)}

    def page(self, path):
        return self.pages.get(path, Page(path, ""))

    def below(self, *folders):
        return [page for path, page in self.pages.items() if path.startswith(folders)]

    def with_text(self, path, text):
        """The same book with another text on one page."""
        other = object.__new__(Book)
        other.top, other.pages = self.top, {**self.pages, path: Page(path, text)}
        return other
