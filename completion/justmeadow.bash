# shellcheck shell=bash
# Completion for bash: `source completion/justmeadow.bash`, or copy it to /usr/share/bash-completion/completions/justmeadow.

# _justmeadow_files WORD: files and folders that begin so
_justmeadow_files() {
    compopt -o filenames 2>/dev/null
    mapfile -t COMPREPLY < <(compgen -f -- "$1")
}

# _justmeadow_words WORD CHOICES: those of the choices that begin so. The choices are expanded, so they come from no file.
_justmeadow_words() {
    mapfile -t COMPREPLY < <(compgen -W "$2" -- "$1")
}

# _justmeadow_names WORD FILE: the names of a load file that begin so
_justmeadow_names() {
    local file="$2"
    [ "${file#'~/'}" = "$file" ] || file="$HOME/${file#'~/'}"
    [ ! -f "$file" ] || mapfile -t COMPREPLY < <(awk -v word="$1" \
        '$1 == "ROW" && index($2, word) == 1 && length($2) <= 64 && $2 ~ /^[A-Za-z0-9_.-]+$/ { print $2 }' <"$file" 2>/dev/null)
}

_justmeadow() {
    local current="${COMP_WORDS[COMP_CWORD]}" before first=1 place word last='' rest='' loads='' skipped=''
    local commands="run serve drill heat follow mirror cover gen"
    COMPREPLY=()
    # behind --dist and --unproved stand the program's words
    case "${COMP_WORDS[1]-}" in --dist | --unproved) first=2 ;; esac

    before="${COMP_WORDS[COMP_CWORD - 1]}"
    # the file of a redirection, of which the sign may be the word itself
    case "$before" in *[\<\>]) _justmeadow_files "$current" && return ;; esac
    case "$current" in *[\<\>]) _justmeadow_files '' && return ;; esac
    if [ "$COMP_CWORD" -lt "$first" ] || [ "$COMP_CWORD" -eq 1 ]; then
        # the script has words of its own, which the program hasn't
        [ "$(head -c 2 -- "$(type -P -- "$1")" 2>/dev/null)" != '#!' ] || commands="$commands --help --version --test --where --dist --build --unproved"
        _justmeadow_words "$current" "$commands"
        return
    fi
    if [ "$COMP_CWORD" -eq "$first" ]; then
        _justmeadow_words "$current" "$commands"
        return
    fi
    # the place of this word behind the command, without --load and its file, redirections and theirs, and the first --, behind which
    # each word is taken as it is
    place=$((COMP_CWORD - first))
    for word in "${COMP_WORDS[@]:first:COMP_CWORD - first}"; do
        case "$rest/$skipped/$word" in
            */skipped/*) place=$((place - 1)) skipped='' ;;
            *[\<\>]) place=$((place - 1)) skipped=skipped ;;
            //--) place=$((place - 1)) rest=rest ;;
            //--load) place=$((place - 2)) loads=loads ;;
            //=) place=$((place - 1)) ;;
            *) last="$word" ;;
        esac
    done
    # bash makes three words of --load=FILE
    [ "$before" != = ] || before="${COMP_WORDS[COMP_CWORD - 2]}"
    if [ "$rest/$before" = /--load ]; then
        # a FILE that begins with a dash stands behind the =
        [[ "${COMP_WORDS[COMP_CWORD - 1]}$current" = --load-* ]] || _justmeadow_files "${current#=}"
        return
    fi
    case "$rest/$loads/${COMP_WORDS[first]}:$current" in
        //run:-* | //serve:-* | //drill:-*) _justmeadow_words "$current" --load ;;
        /*:-*) ;;
        *) _justmeadow_place "${COMP_WORDS[first]}:$place" "$current" "$last" ;;
    esac
}

# _justmeadow_place COMMAND:PLACE WORD LAST: what stands at this place behind the command and behind the last word
_justmeadow_place() {
    case "$1" in
        run:1 | serve:1 | drill:1 | heat:1 | follow:1 | mirror:1 | cover:1) _justmeadow_files "$2" ;;
        follow:2 | cover:2) _justmeadow_files "$2" ;;
        cover:3) _justmeadow_names "$2" "$3" ;;
        drill:2 | heat:2) _justmeadow_words "$2" "0 100 1000" ;;
        drill:* | heat:*) _justmeadow_files "$2" ;;
        serve:2 | mirror:2) _justmeadow_words "$2" 7000 ;;
        serve:3 | mirror:3) _justmeadow_words "$2" "8 64" ;;
        serve:4 | mirror:4) _justmeadow_words "$2" 1000000 ;;
    esac
}

complete -F _justmeadow justmeadow
