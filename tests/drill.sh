#!/usr/bin/env bash
# Runs the program's `drill`: rows worked by hand, each fault with its code, and long files of mixed lines, whose output
# tests/legal.py judges: SOAK_LINES in each of the longest, 10,000 where it isn't set. Ends with 1 at the first difference.
# shellcheck source=program.sh
. "$(dirname "${BASH_SOURCE[0]}")/program.sh"
began=$SECONDS

# drill WORD..: runs `drill` on the schema
drill() { call drill schema.txt "$@"; }

# one_of NAME OUT..: what the last call left is one of these texts for printf, with status 0
one_of() {
    local name="$1" text
    shift
    for text; do
        printf "$text" >want-one
        ! cmp -s want-one out || { same "$name" 0 "$text" ''; return; }
    done
    echo "FAILED: $name: none of the outputs, status $code"
    cat err out
    exit 1
}

cd "$room" || exit 1
: >in
printf 'int price 0 1000\nint qty -5 5\nsym side buy sell hold\nint one 7 7\n' >schema.txt

# rows
printf 'SUB a price<5 and side in {sell,buy,buy}\nQUIT\n' >f1
one='== 1\nOK 1\nBYE 2\n== LOG 2\nSUB 1 0 a price < 5 and side in {buy,sell}\nBYE 1 1\n'
drill 0 f1; same 'one file' 0 "$one" ''
drill 000 f1; same 'a number with zeros before it' 0 "$one" ''
drill 1000000 f1; same 'the most rounds' 0 "$one" ''
drill 0 -- f1; same 'a separator' 0 "$one" ''
call drill -- schema.txt 0 f1; same 'a separator before all' 0 "$one" ''
printf 'SUB a all\nTAIL 0 5\n' >f1
drill 0 f1; same 'a TAIL' 0 '== 1\nOK 1\nAT 0 SUB 1 0 a all\nTAILED 1 1\n== LOG 2\nSUB 1 0 a all\nBYE 1 1\n' ''
printf 'DUMP\n' >f1
printf 'ROW a price<5\n' >load.txt
opened='== 1\nROW a price < 5\n# DUMP 1 1\n== LOG 2\nSUB 0 0 a price < 5\nBYE 1 0\n'
drill 0 f1 --load=load.txt; same 'a load file' 0 "$opened" ''
drill --load load.txt 0 f1; same 'a load file before the rounds' 0 "$opened" ''
call drill --load load.txt schema.txt 0 f1; same 'a load file before the schema' 0 "$opened" ''

# two files: each order of their changes, with the replies that it allows
printf 'SUB a all\n' >f1
printf 'UNSUB a' >f2
other='SUB 1 0 a all\nBYE 2 0\nBYE 1 1\n' last='SUB 1 0 a all\nBYE 1 1\nBYE 2 0\n' first='BYE 2 0\nSUB 1 0 a all\nBYE 1 1\n'
outcomes=()
for reply in 'NONE 0' 'OTHER 1 0' 'NONE 2'; do outcomes+=("== 1\nOK 1\n== 2\n$reply\n== LOG 3\n$last"); done
for reply in 'NONE 0' 'OTHER 1 0'; do outcomes+=("== 1\nOK 1\n== 2\n$reply\n== LOG 3\n$other"); done
outcomes+=("== 1\nOK 2\n== 2\nNONE 0\n== LOG 3\n$first")
for rounds in 0 0 0 0 0 0 0 0 0 0 3 3 3 100; do
    drill $rounds f1 f2; one_of "two files, $rounds rounds" "${outcomes[@]}"
done

# letters beside a file without lines
printf 'SUB a all\nSEND -\nFETCH 5\n' >f1
: >f2
outcomes=("== 1\nOK 2\nSENT 2 1 0\nNOTE 2 a -\nEND 1\n== 2\n== LOG 3\n$first")
for n in 1 2; do outcomes+=("== 1\nOK 1\nSENT $n 1 0\nNOTE $n a -\nEND 1\n== 2\n== LOG 3\n$other"); done
outcomes+=("== 1\nOK 1\nSENT 1 1 0\nNOTE 1 a -\nEND 1\n== 2\n== LOG 3\n$last")
for rounds in 0 0 0 0 0 3 3 100; do
    drill $rounds f1 f2; one_of "letters, $rounds rounds" "${outcomes[@]}"
done

# lines: an empty file, lines about the limit, no LF at the end, what follows a QUIT
drill 5 f2; same 'an empty file' 0 '== 1\n== LOG 1\nBYE 1 0\n' ''
{ head -c 65537 /dev/zero; printf '\n'; head -c 65536 /dev/zero; printf '\r\n\nSUB a all\r\nPUB -'; } >f1
drill 0 f1; same 'lines about the limit' 0 '== 1\nLONG\nLONG\nBAD\nOK 1\nHIT 1 1 a\n== LOG 2\nSUB 1 0 a all\nBYE 1 1\n' ''
{ head -c 65536 /dev/zero; printf '\n'; head -c 65537 /dev/zero; } >f1
drill 0 f1; same 'a last line about the limit' 0 '== 1\nBAD\nLONG\n== LOG 1\nBYE 1 0\n' ''
printf 'QUIT\nSUB a all\nQUIT\n' >f1
drill 0 f1; same 'lines behind a QUIT' 0 '== 1\nBYE 1\n== LOG 1\nBYE 1 0\n' ''
printf '\r' >f1
drill 0 f1; same 'a CR at the end' 0 '== 1\nBAD\n== LOG 1\nBYE 1 0\n' ''

# one file, with rounds and without: nobody else changes the list, so the output is the same
awk -v what=schema -f "$top/bench/workload.awk" >work.txt
awk -v what=script -v subs=2000 -v events=300 -f "$top/bench/workload.awk" | grep -v '^COST' >f1
{ awk '/^SUB/ && NR % 3 { print "UNSUB " $2 }' f1; echo LIST; echo DUMP; echo 'TAIL 5 50'; grep '^PUB' f1; echo 'SUB again all'; echo 'SEND -'; echo 'FETCH 9'; } >after
cat after >>f1
call drill work.txt 0 f1
cp out still
for rounds in 1 50 1000; do
    call drill work.txt $rounds f1
    cmp -s out still || { echo "FAILED: one file, $rounds rounds: another output than without rounds"; exit 1; }
    passed=$((passed + 1))
done
# and its transcript is that of `run`
"$program" run work.txt <f1 >ran
{ echo '== 1'; cat ran; } >want
sed '/^== LOG/,$d' still >got
cmp -s want got || { echo 'FAILED: one file: another transcript than that of run'; diff want got | head; exit 1; }
passed=$((passed + 1))

# faults, of which the first in order ends the call
printf 'SUB a all\n' >f1
printf 'int price 10 1\n' >faulty.txt
printf 'ROW a\n' >row.txt
truncate -s 67108865 over.txt
truncate -s 67108864 limit.txt
drill 0 missing; same 'a missing file' 4 '' 'read fault\n'
drill 0 f1 f1 missing; same 'a missing file behind others' 4 '' 'read fault\n'
drill 0 .; same 'a folder as file' 4 '' 'read fault\n'
drill 0 ''; same 'a file without a name' 4 '' 'read fault\n'
drill 0 over.txt; same 'a file over the limit' 4 '' 'file over 67108864 bytes\n'
drill 0 f1 over.txt missing; same 'a file over the limit before a missing one' 4 '' 'file over 67108864 bytes\n'
drill 0 f1 missing over.txt; same 'a missing file before one over the limit' 4 '' 'read fault\n'
drill 0 limit.txt; same 'a file at the limit, of one line' 0 '== 1\nLONG\n== LOG 1\nBYE 1 0\n' ''
call drill missing 0 missing; same 'a missing schema' 4 '' 'read fault\n'
call drill over.txt 0 f1; same 'a schema over the limit' 4 '' 'file over 67108864 bytes\n'
call drill faulty.txt 0 missing --load missing; same 'a faulty schema before missing files' 3 '' 'schema line 1: Range\n'
drill 0 missing --load row.txt; same 'a faulty load file before a missing file' 3 '' 'load line 1: Form\n'
drill 0 over.txt --load missing; same 'a missing load file before one over the limit' 4 '' 'read fault\n'
drill 0 f1 --load over.txt; same 'a load file over the limit' 4 '' 'file over 67108864 bytes\n'
call drill missing x f1; same 'faulty words before a missing schema' 2 '' 'words refused\n'
: >out; "$program" drill schema.txt 0 f1 >&- 2>err; code=$?
same 'a closed output' 5 '' 'write fault\n'
if [ -w /dev/full ]; then
    "$program" drill schema.txt 3 f1 f1 >/dev/full 2>err; code=$?
    same 'a full output' 5 '' 'write fault\n'
    "$program" drill schema.txt 0 missing >/dev/full 2>err; code=$?
    same 'a missing file before a full output' 4 '' 'read fault\n'
else
    echo 'skipped: a full output: there is no /dev/full here'
fi
"$program" drill schema.txt 0 f1 <&- >out 2>err; code=$?
same 'a closed input, which nobody reads' 0 '== 1\nOK 1\n== LOG 2\nSUB 1 0 a all\nBYE 1 1\n' ''
mkfifo pipe
# shellcheck disable=SC2094
exec 3<>pipe 4>pipe 3<&-
: >out; "$program" drill schema.txt 0 f1 >&4 2>err; code=$?
exec 4>&-
same 'a pipe that nobody reads' 5 '' 'write fault\n'

# files of mixed lines, judged
if ! command -v python3 >/dev/null; then
    echo 'skipped: files of mixed lines: there is no python3 here'
    echo "$passed passed, 0 failed"
    exit
fi

# judged NAME ROUNDS WORD..: `drill` of the folder's files f1, f2 and so on ends with 0 and a legal output, whose kinds of
# replies are in the file `kinds`
judged() {
    local name="$1" rounds="$2" files
    shift 2
    files=(f?) && [ ! -e f10 ] || files+=(f??)
    "$program" drill schema.txt "$rounds" "${files[@]}" "$@" >out 2>err; code=$?
    [ "$code" -eq 0 ] || { echo "FAILED: $name: ended with $code"; cat err; exit 1; }
    python3 "$top/tests/legal.py" schema.txt --ample "$@" out "${files[@]}" >kinds 2>why || { echo "FAILED: $name"; cat kinds why; exit 1; }
    passed=$((passed + 1))
}

# mixed FILES LINES SEED: goes to a new folder of such files
mixed() {
    local folder="$room/mixed-$1-$2-$3"
    mkdir -p "$folder"
    cd "$folder" || exit 1
    python3 "$top/tests/mixed.py" . "$1" "$2" "$3" || exit 1
}

python3 "$top/tests/legal.py" --self-test || exit 1
passed=$((passed + 1))
# the example
cd "$top/examples/market" || exit 1
"$program" drill schema.txt 100 alice.txt bob.txt >"$room/out" 2>"$room/err" || { echo 'FAILED: the example market'; exit 1; }
for output in "$room/out" possible.txt; do
    python3 "$top/tests/legal.py" schema.txt --ample "$output" alice.txt bob.txt || { echo "FAILED: the example market: $output"; exit 1; }
    passed=$((passed + 1))
done
for seed in 1 2 3; do
    mixed 64 1 $seed; judged "64 files of a line, $seed" 0; judged "64 files of a line, $seed" 5 --load load.txt
    mixed 5 20 $seed; judged "files of 20 lines, $seed" 3
done
mixed 64 40 4; judged '64 files' 100 --load load.txt
mixed 1 2000 5; judged 'one file' 100 --load load.txt
mixed 64 1 6; for file in f*; do : >"$file"; done; judged '64 empty files' 10
# boxes that are full
mixed 2 1 7
for file in f1 f2; do
    { echo "SUB $file all"; yes 'SEND -' | head -n 1500; echo 'FETCH 700'; yes 'SEND price=1' | head -n 900; echo 'FETCH 5000'; } >$file
done
judged 'full boxes' 10
mixed 8 "${SOAK_LINES:-10000}" 8; judged '8 long files' 1000; judged '8 long files over a load file' 1000 --load load.txt
for kind in '#' ATTR BAD BYE COST DOM DUP END HIT LIST LONG MANY NONE OK OTHER SENT TAILED TWICE; do
    grep -q "[0-9] $kind\(,\|$\)" kinds || { echo "FAILED: 8 long files: no reply $kind"; exit 1; }
done
echo "drill: $(cat kinds)"
cd "$room" || exit 1
echo "$passed passed, 0 failed; drill took $((SECONDS - began)) s"
