#!/usr/bin/env bash
# What completion/justmeadow.bash offers: for each row of words, of which the last is being typed, the offers in order.
# shellcheck source=program.sh
. "$(dirname "${BASH_SOURCE[0]}")/program.sh"
# shellcheck source=../completion/justmeadow.bash
. "$top/completion/justmeadow.bash"

cd "$room" || exit 1
mkdir -p home
HOME="$room/home"
touch schema.txt script.txt ./-x.txt
# a load file of which one row has no name but a command, and one a name that is too long
printf 'ROW good all\n# ROW gone all\nROW $(touch${IFS}touched) all\nROW gold price < 5\nROW %065d all\nROW bad all\n' 0 >rows.txt
cp rows.txt home/rows.txt

# offers EXPECTED WORD..: what is offered for the last of these words behind the name of the script
offers() {
    local expected="$1"
    shift
    COMP_WORDS=("$top/justmeadow" "$@") COMP_CWORD=$# COMPREPLY=()
    _justmeadow "$top/justmeadow"
    if [ "$(printf '%s\n' "${COMPREPLY[@]}" | sort | xargs)" = "$expected" ]; then
        passed=$((passed + 1))
    else
        echo "FAILED: completion of '$*' offers '${COMPREPLY[*]}', and not '$expected'"
        exit 1
    fi
}

offers 'follow' f
offers '--where' --w
offers 'serve' --dist s
offers 'schema.txt script.txt' run s
offers 'schema.txt script.txt' run -- s
offers '-x.txt' run -- -
offers '--load' run -
offers '' mirror -
offers '' run schema.txt ''
offers '' run -- schema.txt ''
offers '7000' serve schema.txt ''
offers '7000' serve -- schema.txt ''
offers '7000' serve --load rows.txt -- schema.txt ''
offers '64 8' serve --load = rows.txt schema.txt 7000 ''
offers '0 100 1000' drill schema.txt ''
offers 'schema.txt script.txt' drill schema.txt 0 s
offers 'rows.txt' serve schema.txt --load r
offers 'rows.txt' serve schema.txt --load = r
offers '' serve schema.txt --load -
offers '-x.txt' serve schema.txt --load = -x
offers '7000' serve -- --load ''
offers '' run schema.txt --load rows.txt -

# redirections
offers 'schema.txt script.txt' run schema.txt '<' s
offers 'script.txt' run schema.txt '<' schema.txt '>' scr
offers 'schema.txt script.txt' run '<' rows.txt s
offers '0 100 1000' drill schema.txt '>' out ''

# names of a load file, from which no command is run
offers 'bad gold good' cover schema.txt rows.txt ''
offers 'gold good' cover -- schema.txt rows.txt go
offers 'gold good' cover schema.txt rows.txt '>' out go
# shellcheck disable=SC2088 # as bash hands it over
offers 'gold good' cover schema.txt '~/rows.txt' g
offers '' cover schema.txt - g
offers '' cover schema.txt missing.txt g
offers '' cover schema.txt "$room" g
[ ! -e touched ] || { echo 'FAILED: a name of a load file was run'; exit 1; }
passed=$((passed + 1))

echo "$passed passed, 0 failed"
