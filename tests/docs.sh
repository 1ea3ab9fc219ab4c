#!/usr/bin/env bash
# Checks README, docs/ and bench/RESULTS.md against what is there: links and their headings, paths, commands, crates, definitions,
# functions, clauses and edits, limits, exit codes and figures. Where all of it holds it plants faults into the pages, in memory, and
# sees that each is found. It prints a line for each fault, and last `N passed, N failed`. It needs Debian's python3 alone.
PYTHONDONTWRITEBYTECODE=1 exec python3 "$(dirname "${BASH_SOURCE[0]}")/docs/check.py"
