#!/usr/bin/env bash
# Runs the program's `serve`: its words and files with their faults, and then clients over TCP, by tests/serve.py, which judges
# what each of them saw over the list that the server prints. Ends with 1 at the first difference.
# shellcheck source=program.sh
. "$(dirname "${BASH_SOURCE[0]}")/program.sh"
began=$SECONDS

cd "$room" || exit 1
: >in
printf 'int price 0 1000\n' >schema.txt
printf 'int price 10 1\n' >faulty.txt
printf 'ROW a\n' >row.txt

for words in 'schema.txt 0 1 1' 'schema.txt 65536 1 1' 'schema.txt 7000 0 1' 'schema.txt 7000 65 1' 'schema.txt 7000 1 0' \
    'schema.txt 7000 1 1000001' 'schema.txt 7000 1' 'schema.txt 7000 1 1 1' 'schema.txt x 1 1' 'missing 7000 1 1 --load' ''; do
    # shellcheck disable=SC2086
    call serve $words; same "faulty words: $words" 2 '' 'words refused\n'
done
call serve missing 7000 1 1; same 'a missing schema' 4 '' 'read fault\n'
call serve faulty.txt 7000 1 1 --load missing; same 'a faulty schema before a missing load file' 3 '' 'schema line 1: Range\n'
call serve schema.txt 7000 1 1 --load row.txt; same 'a faulty load file' 3 '' 'load line 1: Form\n'
call serve schema.txt 7000 1 1 --load missing; same 'a missing load file' 4 '' 'read fault\n'

if ! command -v python3 >/dev/null; then
    echo 'FAILED: clients over TCP: they need python3, and there is none here'
    echo "$passed passed, 1 failed"
    exit 1
fi
part python3 "$top/tests/serve.py" "$program"
part python3 "$top/tests/descriptors.py" "$program"
if python3 "$top/examples/follower/follower.py" "$program"; then
    passed=$((passed + 1))
else
    echo 'FAILED: the example of a follower'
    failed=$((failed + 1))
fi
echo "serve took $((SECONDS - began)) s"
echo "$passed passed, $failed failed"
[ $failed -eq 0 ]
