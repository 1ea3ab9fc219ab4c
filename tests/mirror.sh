#!/usr/bin/env bash
# Runs the program's `mirror`: its words and its schema with their faults; then clients over TCP beside a feed, by tests/mirror.py,
# which judges what each of them saw over the list that the feed means; then starts with a feed that is there, by
# tests/mirror_starts.py. Ends with 1 at the first difference.
# shellcheck source=program.sh
. "$(dirname "${BASH_SOURCE[0]}")/program.sh"
began=$SECONDS

cd "$room" || exit 1
: >in
printf 'int price 0 1000\n' >schema.txt
printf 'int price 10 1\n' >faulty.txt

for words in 'schema.txt 0 1 1' 'schema.txt 65536 1 1' 'schema.txt 7000 0 1' 'schema.txt 7000 65 1' 'schema.txt 7000 1 0' \
    'schema.txt 7000 1 1000001' 'schema.txt 7000 1' 'schema.txt 7000 1 1 1' 'schema.txt x 1 1' 'schema.txt 7000 1 1 --load schema.txt' ''; do
    # shellcheck disable=SC2086
    call mirror $words; same "faulty words: $words" 2 '' 'words refused\n'
done
call mirror missing 7000 1 1; same 'a missing schema' 4 '' 'read fault\n'
call mirror faulty.txt 7000 1 1; same 'a faulty schema' 3 '' 'schema line 1: Range\n'

if ! command -v python3 >/dev/null; then
    echo 'FAILED: clients over TCP: they need python3, and there is none here'
    echo "$passed passed, 1 failed"
    exit 1
fi
part python3 "$top/tests/mirror.py" "$program"
part python3 "$top/tests/mirror_starts.py" "$program"
echo "mirror took $((SECONDS - began)) s"
echo "$passed passed, $failed failed"
[ $failed -eq 0 ]
