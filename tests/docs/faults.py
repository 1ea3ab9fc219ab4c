"""Tests the checks: each finds the faults that are planted for it into a page."""
import links
import names
import numbers_told

# page, what stands there, what is put in its place (or behind the last line), and a part of the line that tells of it
FAULTS = {
    links.check_links: [
        ("docs/develop/terms.md", None, "[a page](../use/nowhere.md)", "has a link to ../use/nowhere.md"),
        ("docs/develop/terms.md", None, "[a heading](architecture.md#nowhere)", "has no such heading"),
    ],
    links.check_paths: [
        ("docs/develop/terms.md", None, "see `bench/nowhere.sh`", "names bench/nowhere.sh"),
        ("docs/develop/terms.md", None, "see `src/nowhere.rt`", "names src/nowhere.rt, which no crate has"),
    ],
    links.check_crates: [
        ("docs/develop/terms.md", None, "see `be_nowhere`", "names be_nowhere, which is no crate"),
        ("docs/develop/architecture.md", "| `be_cover` |", "| `be_copy` |", "has no row of the crate be_cover"),
    ],
    links.check_commands: [
        ("docs/use/commands.md", None, "`./justmeadow publish FILE`", "has the command ./justmeadow publish"),
        ("docs/use/commands.md", None, "`./justmeadow --quick`", "has the command ./justmeadow --quick"),
        ("docs/use/protocol.md", "FETCH", "FETCHES", "doesn't have the line FETCH"),
    ],
    links.check_places: [
        ("docs/develop/terms.md", None, "in /home/somebody/file", "names a place of a machine"),
        ("docs/develop/terms.md", None, "as issue 12 says", "names something outside"),
        ("docs/develop/terms.md", None, "takes @@TIME", "has '@@TIME' where something is to be written"),
    ],
    links.check_readme: [("README.md", None, "x" * 8192, "more than 8192")],
    names.check_map: [
        ("docs/develop/architecture.md", "`be_model/Hulls` |", "`be_model/Lies` |", "names hull in be_model/Lies"),
        ("docs/develop/architecture.md", "(`be_protocol/src/conversing.rt`)", "(`be_protocol/src/short.rt`)", "names converse in be_protocol/src/short.rt"),
        ("docs/develop/architecture.md", "be_io/src/lines.rt", "be_io/src/nowhere.rt", "names be_io/src/nowhere.rt"),
    ],
    names.check_words: [("docs/develop/terms.md", None, "see `is_nowhere_named`", "names is_nowhere_named, which no source has")],
    names.check_clauses: [
        ("docs/proof/promises.md", None, "| - | - |\n|---|---|\n| a line | `write_all` (`is_sound`) |", "names the clause is_sound of `write_all`"),
        ("docs/proof/promises.md", None, "| - | - |\n|---|---|\n| a line | `is_nowhere_named` |", "names is_nowhere_named, which no source has"),
    ],
    names.check_bodies: [
        ("docs/proof/wrong-bodies.md", None, "gate: `push_behind` of `be_change`", "names the edit push_behind of be_change (gate)"),
        ("docs/proof/wrong-bodies.md", None, "planted: `letter_is_dropped` of `be_io`", "names the edit letter_is_dropped of be_io (planted)"),
    ],
    names.check_refusals: [("docs/proof/wrong-bodies.md", None, "refused by `wrote` of `Room::hits`", "names wrote of Room::hits")],
    names.check_edits: [("docs/develop/gate.md", "`be_adjust`, ", "", "lists must-fail edits of other crates")],
    numbers_told.check_limits: [
        ("docs/use/protocol.md", "65,536", "65,535", "isn't LINE_BYTES"),
        ("docs/use/protocol.md", "2^48", "2^47", "isn't LOG_CHANGES"),
        ("docs/develop/terms.md", None, "a box holds 1,023 letters", "isn't BOX_LETTERS"),
        ("README.md", "256", "255", "isn't ATTRIBUTES"),
    ],
    numbers_told.check_codes: [("docs/use/commands.md", "\n| 7 |", "\n| 11 |", "tells of the exit codes")],
    numbers_told.check_figures: [("README.md", "<!-- end of figures", "987,654,321 events\n<!-- end of figures", "prints the figure 987,654,321")],
    numbers_told.check_results: [("bench/RESULTS.md", "commit", "state", "doesn't tell the commit")],
}


def check_faults(book, sources, report, new_report):
    """Each planted fault is found. It goes into the page in memory, each by itself."""
    for check, faults in FAULTS.items():
        for path, old, new, told in faults:
            text = book.page(path).text
            if old and old not in text:
                report.see(False, f"{path} has no '{old.strip()}', in place of which tests/docs/faults.py plants a fault")
                continue
            found = new_report()
            check(book.with_text(path, text.replace(old, new) if old else f"{text}\n\n{new}\n"), sources, found)
            report.see(any(told in fault for fault in found.faults), f"{check.__name__} doesn't find '{new[:60].strip()}' on {path}")
