#!/usr/bin/env bash
# Prints how long a plan takes where nothing is to be done: trees of rows of random predicates over ten attributes, of one
# predicate each or of one to four, are reshaped by the steps that are planned until none is, and then the plan is asked for.
# The time is that of the processor, as the program measures it, the least of ten tenths of the plans. The largest tree takes
# minutes to settle. It builds, and so proves, a program of its own.
# shellcheck source=common.sh
. "$(dirname "${BASH_SOURCE[0]}")/common.sh"
own_crate planbench be_base be_model be_shape be_score be_insert be_remove be_adjust be_plan
sed -i '$s/$/ anyhow/' "$room/crates.txt"
build_own planbench one 100 1

# measure KIND TEXT ROWS PLANS
measure() {
    "$own" "$1" "$3" "$4" >"$room/out.txt" || exit 1
    awk -v of="$2" -v rows="$3" '{
        printf "a plan of %d rows of %s, settled by %d steps, answering %s | %.3f ms\n", rows, of, $1, $3, $2 / 1000000
    }' "$room/out.txt"
}

for rows in 1000 10000 100000; do
    measure one "one predicate" "$rows" $((2000000 / rows))
    measure four "one to four" "$rows" $((2000000 / rows))
done
