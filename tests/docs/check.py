#!/usr/bin/env python3
"""Checks what the documents say against what is there (see tests/docs.sh), and then the checks themselves."""
import sys
from pathlib import Path

import faults
import links
import names
import numbers_told
from pages import Book
from sources import Sources

CHECKS = [
    links.check_links,
    links.check_paths,
    links.check_pages_in_sources,
    links.check_crates,
    links.check_commands,
    links.check_places,
    links.check_readme,
    names.check_map,
    names.check_words,
    names.check_clauses,
    names.check_bodies,
    names.check_refusals,
    names.check_edits,
    numbers_told.check_limits,
    numbers_told.check_codes,
    numbers_told.check_figures,
    numbers_told.check_results,
]


class Report:
    """Counts what was looked at, and keeps a line for each fault."""

    def __init__(self):
        self.passed, self.faults = 0, []

    def see(self, holds, fault):
        if holds:
            self.passed += 1
        elif fault not in self.faults:
            self.faults.append(fault)


def main():
    top = Path(__file__).resolve().parents[2]
    book, sources = Book(top), Sources(top)
    report = Report()
    for check in CHECKS:
        check(book, sources, report)
    # over pages with faults a planted one tells nothing
    if not report.faults:
        faults.check_faults(book, sources, report, Report)
    for fault in report.faults:
        print(f"FAILED: {fault}")
    print(f"{report.passed} passed, {len(report.faults)} failed")
    return 1 if report.faults else 0


if __name__ == "__main__":
    sys.exit(main())
