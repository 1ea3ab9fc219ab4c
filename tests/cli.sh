#!/usr/bin/env bash
# Runs the program, and compares its exit codes, standard output and standard error byte for byte. Ends with 1 at the first difference.
# shellcheck source=program.sh
. "$(dirname "${BASH_SOURCE[0]}")/program.sh"

cd "$room" || exit 1
three='SUB a price >= 10\nPUB price=10\nPUB price=9\n'
replies='OK 1\nHIT 1 1 a\nHIT 1 0\n'
printf 'int price 0 1000\nint qty -5 5\nint one 7 7\n' >schema.txt
printf "$three" >in

# words
call; same 'no word' 2 '' 'words refused\n'
call run; same 'one word' 2 '' 'words refused\n'
call schema.txt; same 'a schema alone' 2 '' 'words refused\n'
call run schema.txt schema.txt; same 'three words' 2 '' 'words refused\n'
call fly schema.txt; same 'an unknown command' 2 '' 'words refused\n'
call RUN schema.txt; same 'a command in capitals' 2 '' 'words refused\n'
call --help; same 'a flag' 2 '' 'words refused\n'
call run -x; same 'a word that begins with a hyphen' 2 '' 'words refused\n'
call run -- -x; same 'a separator, and a missing file' 4 '' 'read fault\n'
call run schema.txt --load; same 'a load file without a name' 2 '' 'words refused\n'
call run schema.txt --load -x; same 'a load file that begins with a hyphen' 2 '' 'words refused\n'
call run schema.txt --load load.txt --load load.txt; same 'two load files' 2 '' 'words refused\n'
call gen 7 0 0 --load load.txt; same 'gen with a load file' 2 '' 'words refused\n'
call run $'\xff'; same 'a word that is no text' 2 '' 'words refused\n'
call gen 7 1000; same 'gen with two numbers' 2 '' 'words refused\n'
call gen 7 100001 0; same 'gen over its limit' 2 '' 'words refused\n'
call drill; same 'drill alone' 2 '' 'words refused\n'
call drill schema.txt; same 'drill of a schema alone' 2 '' 'words refused\n'
call drill schema.txt 0; same 'drill without a file' 2 '' 'words refused\n'
call drill schema.txt schema.txt schema.txt; same 'drill without a number of rounds' 2 '' 'words refused\n'
call drill schema.txt '' in; same 'drill with an empty number of rounds' 2 '' 'words refused\n'
call drill schema.txt -1 in; same 'drill with less than no rounds' 2 '' 'words refused\n'
call drill schema.txt 1000001 in; same 'drill over its rounds' 2 '' 'words refused\n'
call drill schema.txt 18446744073709551616 in; same 'drill of a number of rounds that is too large' 2 '' 'words refused\n'
mapfile -t files < <(yes in | head -n 65)
call drill schema.txt 0 "${files[@]}"; same 'drill of 65 files' 2 '' 'words refused\n'
call drill schema.txt 0 missing.txt "${files[@]:2}"; same 'drill of 64 files' 4 '' 'read fault\n'
call drill schema.txt 0 in -x; same 'drill with a flag' 2 '' 'words refused\n'
call drill schema.txt 0 in --load; same 'drill with a load file without a name' 2 '' 'words refused\n'
call drill schema.txt 0 in --load load.txt --load=load.txt; same 'drill with two load files' 2 '' 'words refused\n'
call drill schema.txt 0 in --rounds=3; same 'drill with an unknown option' 2 '' 'words refused\n'
call drill schema.txt 0 -- -x; same 'drill of a missing file behind a separator' 4 '' 'read fault\n'
for words in 'schema.txt 0 1 1' 'schema.txt 65536 1 1' 'schema.txt 7000 0 1' 'schema.txt 7000 65 1' 'schema.txt 7000 1 0' \
    'schema.txt 7000 1 1000001' 'schema.txt 7000 1' 'schema.txt 7000 1 1 1' 'schema.txt x 1 1' 'schema.txt 7000 1 1 --load load.txt' ''; do
    # shellcheck disable=SC2086
    call mirror $words; same "faulty words of mirror: $words" 2 '' 'words refused\n'
done
call mirror missing.txt 7000 1 1; same 'mirror of a missing schema' 4 '' 'read fault\n'
call gen x 0 0; same 'gen without a number' 2 '' 'words refused\n'
call gen 18446744073709551616 0 0; same 'gen of a number that is too large' 2 '' 'words refused\n'

# schemas
call run missing.txt; same 'a missing schema' 4 '' 'read fault\n'
call run ''; same 'a file without a name' 4 '' 'read fault\n'
call run .; same 'a folder as schema' 4 '' 'read fault\n'
call run schema.txt/inner; same 'a file as a folder' 4 '' 'read fault\n'
printf 'int price 0 1000\n' >closed.txt
chmod 000 closed.txt
if [ ! -r closed.txt ]; then
    call run closed.txt; same 'a schema without permission' 4 '' 'read fault\n'
elif "${nobody[@]}" true 2>/dev/null; then
    "${nobody[@]}" "$program" run closed.txt <in >out 2>err; code=$?
    same 'a schema without permission' 4 '' 'read fault\n'
else
    echo 'skipped: a schema without permission: this user may read every file'
fi
: >empty.txt
call run empty.txt; same 'an empty schema' 0 'ATTR price\nATTR price\nATTR price\n' ''
printf 'int price 10 1\nint qty -5 5\nint one 7 7\n' >first.txt
call run first.txt; same 'a fault on line 1' 3 '' 'schema line 1: Range\n'
printf 'int price 0 1000\nint qty -5 5\nint one 7\n' >third.txt
call run third.txt; same 'a fault on line 3' 3 '' 'schema line 3: Form\n'
printf 'int price 0 1000\nint qty -5 5\nint one 7' >short.txt
call run short.txt; same 'a fault on a last line without LF' 3 '' 'schema line 3: Form\n'
truncate -s 67108865 over.txt
call run over.txt; same 'a file over the limit' 4 '' 'file over 67108864 bytes\n'
truncate -s 67108864 limit.txt
call run limit.txt; same 'a file at the limit' 3 '' 'schema line 1: Form\n'

printf '# a comment\r\n\r\nint all 0 1\r\n' >reserved.txt
call run reserved.txt; same 'a reserved name behind a comment' 3 '' 'schema line 3: Reserved\n'
printf 'sym a x y x\n' >twice.txt
call run twice.txt; same 'a symbol twice' 3 '' 'schema line 1: Twice\n'
{ for i in $(seq 257); do echo "int a$i 0 1"; done; } >many.txt
call run many.txt; same 'an attribute too many' 3 '' 'schema line 257: Many\n'

# load files
printf '# t\nROW a all\nROW b price < 5\n' >load.txt
printf 'PUB price=1\nSUB a all\nUNSUB b\nSUB c all\nLIST\nSEND price=9\nDUMP\nQUIT\n' >in
opened='HIT 2 2 a b\nDUP 2 0\nOTHER 2 1\nOK 3\nLIST 3 1 c\nSENT 3 1 1\nROW a all\nROW b price < 5\nROW c all\n# DUMP 3 3\nBYE 4\n'
call run schema.txt --load load.txt; same 'a session over an opening' 0 "$opened" ''
call run --load=load.txt schema.txt; same 'a load file before the schema' 0 "$opened" ''
# what a session dumps, its other lines taken out, is a load file
grep '^ROW\|^#' out >dump.txt
printf 'DUMP\nTAIL 0 5\n' >in
dumped='ROW a all\nROW b price < 5\nROW c all\n# DUMP 3 3\n'
told='AT 0 SUB 0 0 a all\nAT 1 SUB 0 1 b price < 5\nAT 2 SUB 0 2 c all\nTAILED 3 3\n'
call run schema.txt --load dump.txt; same 'a dump as a load file' 0 "$dumped$told" ''
: >none.txt
call run schema.txt --load none.txt; same 'an empty load file' 0 '# DUMP 0 0\nTAILED 0 0\n' ''
printf '\r\n \t# x\r\nROW a price<5 and one in {7,007}\r\n' >load.txt
call run schema.txt --load load.txt; same 'a load file with CRs' 0 'ROW a price < 5 and one in {7}\n# DUMP 1 1\nAT 0 SUB 0 0 a price < 5 and one in {7}\nTAILED 1 1\n' ''
# faulty FILE LINE KIND: this load file, and its first fault
faulty() {
    printf "$1" >load.txt
    call run schema.txt --load load.txt; same "a fault of a load file: $1" 3 '' "load line $2: $3\n"
}
faulty 'ROW a all\nROW a all\n' 2 Twice
faulty 'SUB a all\n' 1 Form
faulty 'ROW a all # x\n' 1 Form
faulty 'ROW a volume = 1\n' 1 Attr
faulty 'ROW a price = 1001' 1 Dom
faulty '# t\n\nROW a all\nROW b price < 5 and volume = 1\nROW a\n' 4 Attr
printf 'ROW a price >= 0' >load.txt
for _ in $(seq 32); do printf ' and price >= 0' >>load.txt; done
call run schema.txt --load load.txt; same 'a row of 33 predicates' 3 '' 'load line 1: Many\n'
call run schema.txt --load missing.txt; same 'a missing load file' 4 '' 'read fault\n'
call run schema.txt --load .; same 'a folder as load file' 4 '' 'read fault\n'
call run schema.txt --load over.txt; same 'a load file over the limit' 4 '' 'file over 67108864 bytes\n'
call run first.txt --load missing.txt; same 'a faulty schema before a missing load file' 3 '' 'schema line 1: Range\n'
call drill first.txt 0 missing.txt; same 'a faulty schema before a missing file of drill' 3 '' 'schema line 1: Range\n'
call heat first.txt 0 missing.txt; same 'a faulty schema before a missing file of heat' 3 '' 'schema line 1: Range\n'
call follow first.txt missing.txt; same 'a faulty schema before a missing feed' 3 '' 'schema line 1: Range\n'
call mirror first.txt 7000 1 1; same 'a faulty schema of mirror' 3 '' 'schema line 1: Range\n'
call cover first.txt missing.txt a; same 'a faulty schema before a missing file of cover' 3 '' 'schema line 1: Range\n'
printf "$three" >in

# what events ask for, and a follower
printf 'int price 0 1000\nint qty -5 5\nsym side buy sell hold\nint one 7 7\n' >four.txt
printf 'PUB price=1\nPUB price=2 qty=0\nPUB -\nPUB price=1001\n' >asks.txt
call heat four.txt 0 asks.txt; same 'heat of four events' 0 '== 1\nHIT 0 0\nHIT 0 0\nHIT 0 0\nDOM price\n== LOG 1\nBYE 1 0\n== HEAT 3\nprice 2 1\nqty 1 2\nside 0 3\none 0 3\n' ''
printf 'PUB price=1\nSUB x all\nQUIT\n' >in
printf 'AT 0 SUB 1 0 a all\nAT 1 SUB 1 1 b price < 5\n' >feed.txt
call follow four.txt feed.txt; same 'a follower of two changes' 0 'HIT 2 2 a b\nBAD\nBYE 2\n' ''
printf 'AT 0 SUB 1 0 a all\nAT 1 SUB 1 1 b price < 5' >feed.txt
call follow four.txt feed.txt; same 'a last line without LF' 0 'HIT 1 1 a\nBAD\nBYE 1\n' ''
printf 'AT 1 BYE 1 0\n' >feed.txt
call follow four.txt feed.txt; same 'a gap in a feed' 3 '' 'feed line 1: Gap\n'
printf 'AT 0 SUB 1 0 a all\nAT 0 BYE 1 0\n' >feed.txt
call follow four.txt feed.txt; same 'another change at a place' 3 '' 'feed line 2: Fork\n'
printf 'AT 0 UNSUB 1 0 a\n' >feed.txt
call follow four.txt feed.txt; same 'a removal of no row' 3 '' 'feed line 1: Unfit\n'
printf 'SUB a all\nTAIL 0 5\n' >tail.txt
call drill four.txt 0 tail.txt; same 'TAIL in drill' 0 '== 1\nOK 1\nAT 0 SUB 1 0 a all\nTAILED 1 1\n== LOG 2\nSUB 1 0 a all\nBYE 1 1\n' ''
printf "$three" >in

# sessions
call run schema.txt; same 'the three lines' 0 "$replies" ''
call run "$room/schema.txt"; same 'a schema by its whole path' 0 "$replies" ''
printf 'SUB a price >= 10\nPUB price=10' >in
call run schema.txt; same 'a last line without LF' 0 'OK 1\nHIT 1 1 a\n' ''
printf 'SUB a all\r\nUNSUB b\nLIST\nQUIT\nPUB -\n' >in
call run schema.txt; same 'a QUIT' 0 'OK 1\nNONE 1\nLIST 1 1 a\nBYE 2\n' ''
: >in
call run schema.txt; same 'an empty input' 0 '' ''
{ head -c 65537 /dev/zero; printf '\n'; head -c 65536 /dev/zero; printf "\n$three"; } >in
call run schema.txt; same 'lines about the limit' 0 "LONG\nBAD\n$replies" ''
printf 'SUB a all\nSUB b price < 5\nTAIL 1 5\nUNSUB a\nTAIL 0 2\nTAIL 9 1\nQUIT\n' >in
tails='OK 1\nOK 2\nAT 1 SUB 1 1 b price < 5\nTAILED 2 1\nOK 3\nAT 0 SUB 1 0 a all\nAT 1 SUB 1 1 b price < 5\nTAILED 3 2\nTAILED 3 0\nBYE 4\n'
call run schema.txt; same 'changes from a place on' 0 "$tails" ''
printf 'SUB a all\nSEND price={900, 100} one=7\nSEND price=1001\nFETCH 0\nFETCH 5\nFETCH 5\nDUMP 1\nFETCH 1000001\nTAIL 0\n' >in
letters='OK 1\nSENT 1 1 0\nDOM price\nEND 0\nNOTE 1 a price={100,900} one=7\nEND 1\nEND 0\nBAD\nBAD\nBAD\n'
call run schema.txt; same 'letters' 0 "$letters" ''
# a box that is full: the 1,025th letter is dropped
{ echo 'SUB a all'; yes 'SEND -' | head -n 1025; echo 'FETCH 2000'; echo 'FETCH 5'; } >in
"$program" run schema.txt <in >out 2>err; code=$?
{ echo 'OK 1'; yes 'SENT 1 1 0' | head -n 1024; echo 'SENT 1 0 1'; yes 'NOTE 1 a -' | head -n 1024; echo 'END 1024'; echo 'END 0'; } >box
same 'a full box' 0 "$(cat box)\n" ''
printf "$three" >in
printf "$three" | "$program" run schema.txt >out 2>err; code=$?
same 'input from a pipe' 0 "$replies" ''
printf "$three" >in

# generated scripts
call gen 7 1000 200; same 'the sums of a script' 0 'GEN 1000 200 10006 7212 63788\n' ''
call gen 7 0 0; same 'the sums of an empty script' 0 'GEN 0 0 0 0 0\n' ''
: >out; "$program" gen 7 0 0 >&- 2>err; code=$?
same 'sums to a closed output' 5 '' 'write fault\n'

# covering
printf 'ROW a price < 5\nROW b price < 10\nROW c price < 5 and qty = 0\nROW d all\nROW f price > 7 and price < 3\n' >rows.txt
call cover schema.txt rows.txt a; same 'covered rows' 0 'COVER b\nNOT c price=0\nCOVER d\nNOT f price=0\n' ''
call cover schema.txt rows.txt f; same 'a condition without values' 0 'COVER a\nCOVER b\nCOVER c\nCOVER d\n' ''
call cover schema.txt rows.txt x; same 'no row of the name' 0 'UNKNOWN\n' ''
call cover schema.txt rows.txt 'a b'; same 'cover without a name' 2 '' 'words refused\n'
call cover schema.txt rows.txt; same 'cover of two words' 2 '' 'words refused\n'
call cover schema.txt rows.txt a --load rows.txt; same 'cover with a load file' 2 '' 'words refused\n'
call cover schema.txt missing.txt a; same 'cover of a missing file' 4 '' 'read fault\n'
call cover schema.txt schema.txt a; same 'cover of a faulty file' 3 '' 'load line 1: Form\n'
"$program" cover schema.txt rows.txt a <in >&- 2>err; code=$?; : >out
same 'covered rows to a closed output' 5 '' 'write fault\n'

# input and output that fail
: >out; "$program" run schema.txt <&- >out 2>err; code=$?
same 'a closed input' 4 '' 'read fault\n'
"$program" run schema.txt </ >out 2>err; code=$?
same 'a folder as input' 4 '' 'read fault\n'
: >out; "$program" run schema.txt <in >&- 2>err; code=$?
same 'a closed output' 5 '' 'write fault\n'
if [ -w /dev/full ]; then
    "$program" run schema.txt <in >/dev/full 2>err; code=$?
    same 'a full output' 5 '' 'write fault\n'
else
    echo 'skipped: a full output: there is no /dev/full here'
fi
mkfifo pipe
# shellcheck disable=SC2094
exec 3<>pipe 4>pipe 3<&-
"$program" run schema.txt <in >&4 2>err; code=$?
exec 4>&-
same 'a pipe that nobody reads' 5 '' 'write fault\n'
yes 'PUB price=1' | head -n 200000 >many
"$program" run schema.txt <many 2>err | head -c 0 >out; code=${PIPESTATUS[0]}
same 'a pipe that is left' 5 '' 'write fault\n'
"$program" 2>&- >out <in; code=$?; : >err
same 'a closed standard error' 2 '' ''

# where no memory is left for a SUB, what is held back serves UNSUBs and the QUIT for a while
{ seq -f 'SUB n%.0f price < 5' 60000; seq -f 'UNSUB n%.0f' 300; echo QUIT; } >in
(ulimit -v 16000; exec "$program" run schema.txt) <in >out 2>err; code=$?
grep -q '^NOMEM$' out || { echo 'FAILED: memory suffices for each SUB'; exit 1; }
tail -n 301 out | sed 's/ .*//' | sort | uniq -c | tr -s ' ' >held; mv held out
same 'removals without memory' 0 ' 1 BYE\n 300 OK\n' ''

# examples
for script in "$top"/examples/*/script.txt; do
    folder="$(dirname "$script")" name="$(basename "$(dirname "$script")")"
    load=(); [ ! -e "$folder/load.txt" ] || load=(--load "$folder/load.txt")
    "$program" run "$folder/schema.txt" "${load[@]}" <"$script" >out 2>err; code=$?
    # (no text of an example has a % or a \)
    same "example $name" 0 "$(cat "$folder/expected.txt")\n" ''
done

call cover "$top/examples/ads/schema.txt" "$top/examples/ads/campaigns.txt" toys.kids
same 'the example of covering' 0 "$(cat "$top/examples/ads/covered.txt")\n" ''

# a client in another language, and a model of the page on the protocol
if command -v python3 >/dev/null; then
    python3 "$top/tests/client.py" "$program" || exit 1
    python3 "$top/tests/model.py" "$program" 40 || exit 1
    python3 "$top/tests/cover.py" "$program" || exit 1
    python3 "$top/tests/limits.py" "$program" "$top/examples/short/schema.txt" || exit 1
    python3 "$top/tests/large_leaves.py" "$program" 6 || exit 1
    passed=$((passed + 5))
else
    echo 'skipped: the client, the model and limits on memory: there is no python3 here'
fi

echo "$passed passed, 0 failed"
