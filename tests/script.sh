#!/usr/bin/env bash
# The script `justmeadow` by itself: its words and codes, which program it runs, and what it says of files that aren't there. It
# works in a small checkout of its own, whose programs are shell scripts and whose kit builds by writing a file.
# shellcheck source=program.sh
. "$(dirname "${BASH_SOURCE[0]}")/program.sh"

cd "$room" || exit 1
own="$room/own"
mkdir -p "$own/bin" "$own/top/dist" "$own/top/tools" "$own/top/crates"/{low,justmeadow}/src
cp "$top/justmeadow" "$own/top"
cp "$top/tools/dist" "$own/top/tools"
printf 'justmeadow: low\nlow:\n' >"$own/top/crates.txt"
touch "$own/top/crates"/{low,justmeadow}/src/lib.rt
cat >"$own/bin/rt" <<'RT'
#!/bin/sh
echo "$* in $(basename "$(pwd)")"
[ "$1" != try ] || { cat; exit 4; }
RT
cat >"$own/top/tools/build" <<'BUILD'
#!/bin/sh
cd "$(dirname "$0")/.." || exit 2
[ ! -e broken ] || { echo 'low failed' >&2; exit 1; }
mkdir -p out
printf '#!/bin/sh\necho built "$@"\n' >out/justmeadow
chmod +x out/justmeadow
BUILD
printf '#!/bin/sh\n[ "$1" != memory ] || echo "$GLIBC_TUNABLES"\necho ran "$@"\nexit 6\n' >"$own/top/dist/justmeadow-x86_64-linux"
chmod +x "$own/bin/rt" "$own/top/tools/build" "$own/top/dist/justmeadow-x86_64-linux"
"$own/top/tools/dist" --sources >"$own/top/dist/sources.sha256"
(cd "$own/top/dist" && sha256sum justmeadow-x86_64-linux >justmeadow-x86_64-linux.sha256)

# script WORD..: runs the script of that checkout on the file `in`; what hangs on the place is left out
script() {
    PATH="$own/bin:$PATH" "$own/top/justmeadow" "$@" <"$room/in" >"$room/out" 2>"$room/err"
    code=$?
    sed -i -e "s|$own/top|TOP|g" "$room/out" "$room/err"
}

printf 'LIST\n' >in
script --help; cp out usage
same 'the usage' 0 "$(sed 's/%/%%/g' usage)\n" ''
for words in 'run SCHEMA' 'run SCHEMA --load FILE' 'gen NUMBER SUBS EVENTS' 'cover SCHEMA FILE NAME' 'drill SCHEMA ROUNDS FILE..' \
    'serve SCHEMA PORT SEATS LINKS' 'heat SCHEMA ROUNDS FILE..' 'follow SCHEMA FILE' 'mirror SCHEMA PORT SEATS LINKS' \
    'SUB name condition' 'UNSUB name' 'PUB event' \
    'COST event' LIST 'SEND event' 'FETCH most' DUMP 'TAIL place most' QUIT --help --version --test --dist --where --build --unproved; do
    if grep -q -- "^    \(./justmeadow \)\?$words" usage; then
        passed=$((passed + 1))
    else
        echo "FAILED: the usage lacks $words"
        exit 1
    fi
done
script; same 'the script alone' 2 '' "$(cat usage)\n"

# the program in dist/, where the sources are those that it was built from
script --version; code=$((code + $(grep -c '^justmeadow, commit\|^runs dist/justmeadow-x86_64-linux, built from these sources$\|^proved with: version in' out)))
: >out; same 'the version' 3 '' ''
script run; same 'the program in dist' 6 'ran run\n' ''
script run; same 'and again, by what was seen' 6 'ran run\n' ''
script --where; same 'where it lies' 0 'TOP/dist/justmeadow-x86_64-linux\n' ''
script --dist gen 'a b' ''; same 'words as they are, and the code' 6 'ran gen a b \n' ''
script ''; same 'an empty word is the program'"'"'s' 6 'ran \n' ''
for words in -h 'run -h' 'gen --help' 'serve there 7000 -h'; do
    # shellcheck disable=SC2086
    script $words; same "the usage: $words" 0 "$(sed 's/%/%%/g' usage)\n" ''
done
script run -- -h; same 'a file named -h' 6 'ran run -- -h\n' "justmeadow: there is no file '-h'\n"
script run -x; same 'a word that is refused is no file' 6 'ran run -x\n' ''
unset GLIBC_TUNABLES
script memory; same 'a program that asks for large pages' 6 'glibc.malloc.hugetlb=1\nran memory\n' ''
GLIBC_TUNABLES='' script memory; same 'or what its user says' 6 '\nran memory\n' ''
ln -s "$own/top/justmeadow" "$own/bin/linked"
"$own/bin/linked" gen >out 2>err <in; code=$?
same 'the script by a link' 6 'ran gen\n' ''
chmod -R a-w "$own/top"
as=(); [ ! -w "$own/top" ] || as=("${nobody[@]}")
if [ -w "$own/top" ] && ! "${nobody[@]}" true 2>/dev/null; then
    echo 'skipped: a checkout that cannot be written: this user may write everywhere'
else
    chmod 755 "$own"
    "${as[@]}" "$own/top/justmeadow" gen >out 2>err <in; code=$?
    same 'a checkout that cannot be written' 6 'ran gen\n' ''
fi
chmod -R u+w "$own/top"

# files
touch there
script run there --load missing; same 'a load file that is missing' 6 'ran run there --load missing\n' "justmeadow: there is no file 'missing'\n"
script run --load=missing gone; same 'two files that are missing' 6 'ran run --load=missing gone\n' "justmeadow: there is no file 'missing'\njustmeadow: there is no file 'gone'\n"
script run --load missing; same 'too few words' 6 'ran run --load missing\n' ''
script follow missing; same 'too few words for follow' 6 'ran follow missing\n' ''
script heat there 1 missing --load there; same 'a load file where there is none' 6 'ran heat there 1 missing --load there\n' ''
script run -- -x; same 'a name behind a separator' 6 'ran run -- -x\n' "justmeadow: there is no file '-x'\n"
script serve there 7000 2 2; same 'no file is missing' 6 'ran serve there 7000 2 2\n' ''
script mirror missing 7000 2 2; same 'a schema of mirror that is missing' 6 'ran mirror missing 7000 2 2\n' "justmeadow: there is no file 'missing'\n"
script serve missing 0 1 1; same 'a port that the program refuses, and nothing of files' 6 'ran serve missing 0 1 1\n' ''
script serve missing 7000 65 1; same 'too many seats' 6 'ran serve missing 7000 65 1\n' ''
script serve missing 07000 64 1000000; same 'the greatest numbers' 6 'ran serve missing 07000 64 1000000\n' "justmeadow: there is no file 'missing'\n"
script drill missing x there; same 'rounds that are no number' 6 'ran drill missing x there\n' ''
script run missing --load -x; same 'a load file that the program refuses' 6 'ran run missing --load -x\n' ''
script drill there 10 there missing; same 'a file of lines that is missing' 6 'ran drill there 10 there missing\n' "justmeadow: there is no file 'missing'\n"
script follow missing there; same 'a schema that is missing' 6 'ran follow missing there\n' "justmeadow: there is no file 'missing'\n"
script cover there there name; same 'a name is no file' 6 'ran cover there there name\n' ''
script gen 7 1 1; same 'numbers are no files' 6 'ran gen 7 1 1\n' ''

# another program in dist
cp "$own/top/dist/justmeadow-x86_64-linux" kept
sleep 0.01; echo '# more' >>"$own/top/dist/justmeadow-x86_64-linux"
script --where; same 'a program with another checksum' 0 'TOP/out/justmeadow\n' "justmeadow: the sources aren't those that dist/justmeadow-x86_64-linux was built from: it is built now (--dist runs that one all the same)\n"
cp kept "$own/top/dist/justmeadow-x86_64-linux"
rm -r "$own/top/out"

# other sources
differ='justmeadow: the sources aren'"'"'t those that dist/justmeadow-x86_64-linux was built from: it is built now (--dist runs that one all the same)\n'
sleep 0.01; echo '// another' >"$own/top/crates/low/src/lib.rt"
script --dist gen; same 'dist all the same' 6 'ran gen\n' ''
touch "$own/top/broken"
script gen; same 'a build that fails' 1 '' "${differ}low failed\n"
rm "$own/top/broken"
script gen; same 'a build' 0 'built gen\n' "$differ"
script gen; same 'what was built' 0 'built gen\n' ''
cp -p "$own/top/crates/justmeadow/src/lib.rt" older.rt
sleep 0.01; echo '// later' >"$own/top/crates/justmeadow/src/lib.rt"
script gen; same 'sources that changed once more' 0 'built gen\n' "$differ"
sleep 0.01; cp -p older.rt "$own/top/crates/justmeadow/src/lib.rt"
script gen; same 'an older source that was put back' 0 'built gen\n' "$differ"
sleep 0.01; mkdir "$own/top/crates/low/specs"; echo '-- new' >"$own/top/crates/low/specs/New.antt"
script gen; same 'a source that is new' 0 'built gen\n' "$differ"
sleep 0.01; rm -r "$own/top/crates/low/specs"
script gen; same 'and that is gone' 0 'built gen\n' "$differ"
script --where; same 'where that lies' 0 'TOP/out/justmeadow\n' ''
script --build; same 'a build of what is built' 0 'TOP/out/justmeadow\n' ''
script --unproved run in --load=in
same 'an unproved run' 4 "try -- run $room/in --load=$room/in in justmeadow\nLIST\n" 'justmeadow: an unproved run: nothing is checked, and the input is read to its end, at most 64 MiB, before the first reply\n'
: >"$own/top/crates/low/src/lib.rt"
script run; same 'the sources as they were' 6 'ran run\n' ''

# what the gate asks of dist/
"$own/top/tools/dist" --check >out 2>err; code=$?
same 'a program of other sources' 1 '' 'dist: no program was built of these sources: run rt ci or ./justmeadow --build\n'
script --build; same 'a build of these sources' 0 'TOP/out/justmeadow\n' ''
PATH="$own/bin:$PATH" "$own/top/tools/dist" --check >out 2>err; code=$?
sed -i 's/: .*//' out
same 'another program than the one that was built' 1 'FAILED\n' ''
"$own/top/tools/dist" >out 2>err; code=$?
same 'that one taken' 0 '' ''
"$own/top/tools/dist" --check >out 2>err; code=$?
same 'is the one that was built' 0 'dist/justmeadow-x86_64-linux is the program that was built from these sources, byte for byte\n' ''
rm -r "$own/top/out"
"$own/top/tools/dist" --check >out 2>err; code=$?
same 'no program was built' 1 '' 'dist: no program was built of these sources: run rt ci or ./justmeadow --build\n'

# no kit
echo '// another' >"$own/top/crates/low/src/lib.rt"
PATH=/usr/bin:/bin "$own/top/justmeadow" gen x >out 2>err <in; code=$?
if PATH=/usr/bin:/bin command -v rt >/dev/null; then
    echo 'skipped: no kit: the command rt stands among the system'"'"'s'
else
    same 'no kit' 1 '' "${differ}justmeadow: the command rt, which builds the program, isn't found: it is a part of the Rattle kit (docs/develop/contributing.md)\n"
fi

echo "$passed passed, 0 failed"
