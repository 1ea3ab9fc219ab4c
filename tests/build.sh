#!/usr/bin/env bash
# tools/build, over a kit that only says that it proves: the order, a crate that fails, Ctrl-C, too little memory, a second call.
# Where the real kit is, a wrong body is planted, too, and has to stop the build.
set -u
top="$(cd "$(dirname "${BASH_SOURCE[0]}")/.." && pwd)"
command -v python3 >/dev/null || { echo 'skipped: the build: there is no python3 here'; echo '0 passed, 0 failed'; exit; }
room="$(mktemp -d)"
trap 'rm -rf "$room"' EXIT
passed=0
own="$room/checkout"
kit="$room/kit"
mkdir -p "$own/tools" "$own/crates" "$kit/bin"
cp "$top/tools/build" "$own/tools"
cd "$own" || exit 1

# crates: two ways of different length over one base, and a program on both
printf '# the crates\nbase: kits\nshort: base\nlong: base\nlonger: long\nprogram_tests: longer\njustmeadow: short longer\n' >crates.txt
for it in base short long longer program_tests; do mkdir -p "crates/$it/src" && echo "// $it" >"crates/$it/src/lib.rt"; done
mkdir -p crates/justmeadow/src && echo '// main' >crates/justmeadow/src/main.rt
printf 'base 10 100\nshort 20 100\nlong 20 100\nlonger 20 100\njustmeadow 5 100\n' >tools/build.times

# the kit's prover: notes when it begins and ends, and does what files beside it say
cat >"$kit/bin/rattle" <<'RATTLE'
#!/usr/bin/env bash
name="$3"
while [ $# -gt 0 ]; do [ "$1" != -o ] || made="$2"; shift; done
echo "begin $name" >>"$NOTES"
[ ! -e "$NOTES.slow" ] || sleep 20
sleep 0.2
if [ -e "$NOTES.kill.$name" ]; then
    rm "$NOTES.kill.$name"
    [ ! -e "$NOTES.kill.again" ] || mv "$NOTES.kill.again" "$NOTES.kill.$name"
    kill -9 $$
fi
[ ! -e "$NOTES.fail.$name" ] || { echo "$name: not proved"; exit 1; }
echo "end $name" >>"$NOTES"
case "$made" in *.o) : >"$made" ;; *) mkdir -p "$made" ;; esac
RATTLE
cat >"$kit/bin/rattle-link" <<'LINK'
#!/usr/bin/env bash
while [ $# -gt 0 ]; do [ "$1" != -o ] || { printf '#!/bin/sh\n' >"$2"; chmod +x "$2"; }; shift; done
LINK
printf '#!/bin/sh\n' >"$kit/bin/rt"
chmod +x "$kit"/bin/*
path_before="$PATH"
export NOTES="$room/notes" PATH="$kit/bin:$PATH" JUSTMEADOW_CORES=2
unset JUSTMEADOW_OUT JUSTMEADOW_MEMORY

# build STATUS: runs it from what it kept
build() {
    : >"$NOTES"
    tools/build >out.log 2>&1
    code=$?
    [ $code -eq "$1" ] || { echo "FAILED: $what: ended with $code, and not $1"; cat out.log; exit 1; }
}

# noted LINE..: the prover noted these
noted() {
    : >want
    [ $# -eq 0 ] || printf '%s\n' "$@" >want
    cmp -s want "$NOTES" || { echo "FAILED: $what: the prover noted"; cat "$NOTES"; exit 1; }
    passed=$((passed + 1))
}

# says TEXT: the build said so
says() {
    grep -q "$1" out.log || { echo "FAILED: $what: it doesn't say '$1'"; cat out.log; exit 1; }
    passed=$((passed + 1))
}

what='a first build'
build 0
says '5 of 5 crates are to be proved, up to 2 at once; some 0 min 55 s'
says '1 of 5: base; some 0 min 5[45] s left'
says 'built in 0 min'
sed -i '/^end/d' "$NOTES"
noted 'begin base' 'begin long' 'begin short' 'begin longer' 'begin justmeadow'
[ -x out/justmeadow ] || { echo "FAILED: $what: there is no program"; exit 1; }
[ ! -e out/rlibs/program_tests.rlib ] || { echo "FAILED: $what: a crate that the program doesn't stand on was built"; exit 1; }

what='a second call'
build 0
noted
[ ! -s out.log ] || { echo "FAILED: $what: it says something"; cat out.log; exit 1; }

what='a change'
echo '// more' >>crates/long/src/lib.rt
build 0
says '3 of 5 crates are to be proved'
noted 'begin long' 'end long' 'begin longer' 'end longer' 'begin justmeadow' 'end justmeadow'

what='a file that went'
mkdir -p crates/short/proofs && echo '-- a proof' >crates/short/proofs/Lib.antt
build 0
rm crates/short/proofs/Lib.antt
build 0
noted 'begin short' 'end short' 'begin justmeadow' 'end justmeadow'

what='a crate that fails'
echo '// more' >>crates/base/src/lib.rt
: >"$NOTES.fail.long"
build 1
says 'not built: long failed'
says '^long: not proved'
rm "$NOTES.fail.long"
what='and then does not'
build 0
says '3 of 5 crates are to be proved'
noted 'begin long' 'end long' 'begin longer' 'end longer' 'begin justmeadow' 'end justmeadow'

what='a prover that is killed for want of memory'
echo '// more' >>crates/base/src/lib.rt
: >"$NOTES.kill.short"
build 0
says 'short was killed, most likely for want of memory: it is tried again with nothing beside it'
# nothing begins between its second beginning and its end
awk '$0 == "begin short" { seen++; next } seen == 2 { first = $0; exit } END { exit first != "end short" }' "$NOTES" || { echo "FAILED: $what: it was not alone"; cat "$NOTES"; exit 1; }
passed=$((passed + 1))

what='one that is killed alone, too'
echo '// more' >>crates/short/src/lib.rt
: >"$NOTES.kill.short"
: >"$NOTES.kill.again"
build 1
says 'not built: short failed'
rm -f "$NOTES".kill.*

what='memory for one at a time'
rm out/build.times
echo '// more' >>crates/base/src/lib.rt
JUSTMEADOW_MEMORY=150000000 build 0
noted 'begin base' 'end base' 'begin long' 'end long' 'begin short' 'end short' 'begin longer' 'end longer' 'begin justmeadow' 'end justmeadow'

what='a change while it is built'
echo '// more' >>crates/long/src/lib.rt
: >"$NOTES"
tools/build >out.log 2>&1 &
for _ in $(seq 100); do grep -q 'begin longer' "$NOTES" && break; sleep 0.05; done
echo '// more' >>crates/base/src/lib.rt
wait $! && { echo "FAILED: $what: it ended well"; exit 1; }
says 'was changed while it was built: build again'
what='and the build after it'
build 0
says '5 of 5 crates are to be proved'

what='two builds at once'
echo '// more' >>crates/base/src/lib.rt
: >"$NOTES"
tools/build >first.log 2>&1 &
sleep 0.3
tools/build >out.log 2>&1 || { echo "FAILED: $what: the second failed"; exit 1; }
wait $! || { echo "FAILED: $what: the first failed"; exit 1; }
says 'another build runs here: waiting for it'
[ "$(grep -c begin "$NOTES")" = 5 ] || { echo "FAILED: $what: a crate was built twice"; cat "$NOTES"; exit 1; }
passed=$((passed + 1))

what='Ctrl-C'
echo '// more' >>crates/base/src/lib.rt
: >"$NOTES.slow"
: >"$NOTES"
(set -m; env --default-signal=INT tools/build >out.log 2>&1 & echo $! >pid; wait $!; echo $? >code) 2>/dev/null &
for _ in $(seq 100); do [ -s "$NOTES" ] && break; sleep 0.1; done
kill -INT "$(cat pid)"
wait
[ "$(cat code)" = 130 ] || { echo "FAILED: $what: ended with $(cat code), and not 130"; cat out.log; exit 1; }
says 'stopped. What was built is kept'
if pgrep -f "$kit/bin/rattle" >/dev/null; then echo "FAILED: $what: a prover goes on"; exit 1; fi
rm "$NOTES.slow"
what='a build after it'
build 0
says '5 of 5 crates are to be proved'

what='no kit'
PATH=/usr/bin:/bin
if ! command -v rt >/dev/null; then
    echo '// more' >>crates/base/src/lib.rt
    build 1
    says "the command rt isn't found"
fi

# the real kit, over the lowest crate and a program on it: with a wrong body that is no longer built, and without it
PATH="$path_before"
if command -v rt >/dev/null; then
    what='a wrong body'
    rm -rf "$own/crates" "$own/out" "$own/tools/build.times"
    unset JUSTMEADOW_CORES
    mkdir -p "$own/crates/justmeadow/src"
    cp -r "$top/crates/be_base" "$own/crates"
    printf 'be_base: thiserror\njustmeadow: be_base\n' >"$own/crates.txt"
    printf '//! Nothing but an end.\n\n#![tactic(auto)]\n\nfn main() {}\n' >"$own/crates/justmeadow/src/main.rt"
    edit="$own/crates/be_base/must-fail/sign_lost.edit"
    file="$own/crates/be_base/$(sed -n 's/^file: //p' "$edit")"
    python3 - "$edit" "$file" <<'PLANT'
import sys
words = dict(it.rstrip("\n").split(": ", 1) for it in open(sys.argv[1]))
with open(sys.argv[2]) as it:
    text = it.read()
assert text.count(words["old"]) == 1
with open(sys.argv[2], "w") as it:
    it.write(text.replace(words["old"], words["new"]))
PLANT
    build 1
    says 'not built: be_base failed'
    if [ -e out/rlibs/be_base.rlib ] || [ -e out/justmeadow ]; then echo "FAILED: $what: something was built"; exit 1; fi
    passed=$((passed + 1))
else
    echo 'skipped: a wrong body that the prover refuses: there is no kit here'
fi
echo "$passed passed, 0 failed"
