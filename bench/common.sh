# shellcheck shell=bash disable=SC2034
# What the scripts of this folder share; they source it. Each works in a room of its own, which goes at its end, with whatever
# it has started. Each prints its figures as lines `WHAT | FIGURE`, without anything else on standard output.
#   BENCH_PROGRAM   a built program to measure, in place of the one that ./justmeadow runs
#   BENCH_SMALL     where it is set, sizes and times are a twentieth: to try a script, not to measure
set -u
top="$(cd "$(dirname "${BASH_SOURCE[0]}")/.." && pwd)"
room="$(mktemp -d)"
server=
before=() # the words that a server is started with
at_end() { :; } # what a script has to stop; it may define it anew
trap 'at_end; [ -z "$server" ] || kill "$server" 2>/dev/null; rm -rf "$room"' EXIT
# as ./justmeadow sets it; all programs that are measured run with it
export GLIBC_TUNABLES="${GLIBC_TUNABLES-glibc.malloc.hugetlb=1}"

# fail WORD..: ends the script, and says why
fail() {
    echo "$(basename "$0"): $*" >&2
    exit 1
}

# need COMMAND PACKAGE: ends the script where there is no such command, and names Debian's package that has it
need() {
    command -v "$1" >/dev/null || fail "there is no $1 here; Debian's package $2 has it"
}
need /usr/bin/time time

# Names the program that ./justmeadow runs, which is built where there is none.
use_program() {
    program="${BENCH_PROGRAM:-}"
    [ -n "$program" ] || program="$("$top/justmeadow" --where)" || fail "the program can't be built"
    [ -x "$program" ] || fail "there is no program $program"
}

# scaled NUMBER: the number, or a twentieth of it where a script is only tried
scaled() {
    if [ -n "${BENCH_SMALL:-}" ]; then echo $(($1 / 20 > 0 ? $1 / 20 : 1)); else echo "$1"; fi
}

# row WHAT FIGURE: prints a figure
row() { echo "$1 | $2"; }

# grouped NUMBER: the number, rounded, with commas between its thousands
grouped() {
    local number
    printf -v number '%.0f' "$1"
    while [[ "$number" =~ ^(-?[0-9]+)([0-9]{3})(,.*)?$ ]]; do
        number="${BASH_REMATCH[1]},${BASH_REMATCH[2]}${BASH_REMATCH[3]}"
    done
    echo "$number"
}

# figure FORMAT EXPRESSION: a number by awk's arithmetic, in awk's format
figure() { awk "BEGIN { printf \"$1\", $2 }"; }

# stated: the commit and the date, for what is written down
stated() {
    local commit changed=''
    commit="$(git -C "$top" rev-parse --short=12 HEAD 2>/dev/null)" || commit=unknown
    [ -z "$(git -C "$top" status --porcelain -- crates crates.txt 2>/dev/null)" ] || changed=' with changes'
    echo "commit $commit$changed, $(date -u +%F)"
}

# schema KIND; script KIND SUBS EVENTS: a schema and a script by the awk program of that name
schema() { awk -v what=schema -f "$top/bench/$1.awk"; }
script() { awk -v what=script -v subs="$2" -v events="$3" -f "$top/bench/$1.awk"; }

# compiled NAME SOURCE: compiles a C program of this folder into the room
compiled() {
    need gcc gcc
    gcc -std=gnu11 -O2 -Wall -Wextra -pthread -o "$room/$1" "$top/bench/$2" || fail "$2 can't be compiled"
}

# serving SEATS WORD..: starts `serve` over the room's schema.txt, for so many connections at once and no more, with these words
# behind. It ends with its last client. Its port is $port.
serving() {
    local seats="$1"
    shift
    port="$(python3 -c 'import socket; s = socket.socket(); s.bind(("127.0.0.1", 0)); print(s.getsockname()[1])')"
    "${before[@]}" "$program" serve "$room/schema.txt" "$port" "$seats" "$seats" "$@" </dev/null >/dev/null 2>"$room/err.txt" &
    server=$!
}

# client WORD..: runs a client, of at most a minute, against the server that was started, and waits for the server's end. What
# the client printed is in $told.
client() {
    if ! told="$(timeout 60 "$room/client" "$@")"; then
        kill "$server" 2>/dev/null
        fail "a client failed: $*"
    fi
    wait "$server" || fail "the server ended with $?"
    server=
}

# least RUNS INPUT COMMAND..: the least processor seconds of that many runs of the command on that file. What the last
# run wrote is in $room/out.txt, and its exit code in $room/status.
least() { least_of processor "$@"; }

# fastest RUNS INPUT COMMAND..: likewise the least elapsed seconds
fastest() { least_of elapsed "$@"; }

least_of() {
    local kind="$1" runs="$2" input="$3" run TIMEFORMAT='%3R %3U %3S'
    shift 3
    : >"$room/took"
    for ((run = 0; run < runs; run++)); do
        { time "$@" <"$input" >"$room/out.txt" 2>"$room/err.txt"; echo "status $?" >>"$room/took"; } 2>>"$room/took"
    done
    awk '$1 == "status" { print $2 }' "$room/took" | tail -n 1 >"$room/status"
    awk -v kind="$kind" '$1 != "status" { took = kind == "elapsed" ? $1 : $2 + $3; if (!runs++ || took < least) least = took }
        END { print least }' "$room/took"
}

# peak INPUT COMMAND..: the most memory of one run, in KiB
peak() {
    local input="$1"
    shift
    /usr/bin/time -o "$room/peak" -f %M "$@" <"$input" >/dev/null 2>&1
    tail -n 1 "$room/peak"
}

# own_crate NAME CRATE..: begins a program of that name, over copies of these crates and over the files of the folder
# of that name here. There they end in .txt, since the gate wants each source to be in a crate that it proves.
own_crate() {
    local name="$1" file crate
    command -v rt >/dev/null || fail "there is no rt here, the command of the Rattle kit, which builds and proves this program"
    shift
    cp "$top/HANDLES" "$room"
    (cd "$top/bench/$name" && find . -name '*.txt') | while read -r file; do
        mkdir -p "$room/crates/$name/$(dirname "$file")"
        cp "$top/bench/$name/$file" "$room/crates/$name/${file%.txt}"
    done
    for crate in "$@"; do
        # a library that is built is taken as it is
        tar -C "$top/crates" --exclude=incremental -cf - "$crate" | tar -C "$room/crates" -xf -
        grep "^$crate:" "$top/crates.txt" >>"$room/crates.txt"
    done
    echo "$name: $*" >>"$room/crates.txt"
}

# build_own NAME WORD..: proves and builds it, and runs it once with these words.
build_own() {
    local name="$1"
    shift
    own="$room/crates/$name/out/$name"
    (cd "$room/crates/$name" && rt run -- "$@") </dev/null >"$room/built" 2>&1 || { tail -n 20 "$room/built" >&2; exit 1; }
}
