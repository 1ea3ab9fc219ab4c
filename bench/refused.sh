#!/usr/bin/env bash
# Makes each allocation of the test of refused insertions in worked_steps fail in turn, and prints what the runs came to: how
# many had memory of the test's own refused, and tested nothing, and in how many which row came back. It builds once, and
# proves nothing. It ends with status 1 where a run saw something wrong.
# shellcheck source=common.sh
. "$(dirname "${BASH_SOURCE[0]}")/common.sh"
own_crate refused be_base be_model be_score be_shape be_match be_insert worked_help
cp "$top"/crates/worked_steps/src/{looks,refused}.rt "$room/crates/refused/src"

# the number of the allocation that fails, of which so many may be taken before the test
last=240
mkdir "$room/cases"
for ((pieces = 0; pieces < last; pieces++)); do
    echo "$pieces" >"$room/cases/$(printf %03d "$pieces")"
done
(cd "$room/crates/refused" && rt try --fail-alloc "$last" --cases "$room/cases") >"$room/out.txt" 2>"$room/err.txt"
awk -v last="$last" '
    /^== / { pieces = $2 }
    /^(Untested|AllPlaced|CameBack|Wrong)/ { runs++; times[$0]++; if (!pieces) whole = $0 == "AllPlaced" }
    END {
        for (outcome in times) printf "runs that ended with %s | %d\n", outcome, times[outcome] | "sort -V"
        close("sort -V")
        printf "runs | %d\n", runs
        if (runs != last) { print "not every run ended well"; exit 1 }
        if (!whole) { print "the test takes more memory than is looked at"; exit 1 }
        exit ("Wrong" in times)
    }' "$room/out.txt" || { tail -n 20 "$room/err.txt" >&2; exit 1; }
