# shellcheck shell=sh disable=SC2034
# What the shell scripts beside this file share. Each of them reads it first:
#
#     . "$(dirname -- "$(readlink -f -- "$0")")/words.sh"
#
# It sets `top`, the folder of the repository. The comment at the head of a script is what its
# --help writes, so it says which words the script takes. Words that a script doesn't take end it
# with status 2, before it has begun anything.

self=$(readlink -f -- "$0") || exit 7
top=${self%/*/*}
script=${0##*/}

fail() {
    echo "$script: $1" >&2
    exit "${2:-7}"
}

refuse() {
    fail "$1; '$script --help' says which words it takes" 2
}

write_help() {
    sed -n '2,${ /^#/!q; s/^# \{0,1\}//; p; }' "$self"
}

# `take_words LEAST MOST WORD ..` answers --help, and refuses any other option, and fewer or more
# words than these. MOST may be `any`.
take_words() {
    for word; do
        case $word in
        --help | -h)
            write_help
            exit 0
            ;;
        -*) refuse "there is no option $word" ;;
        esac
    done
    [ $(($# - 2)) -ge "$1" ] || refuse "a word is missing"
    [ "$2" = any ] || [ $(($# - 2)) -le "$2" ] || refuse "there are too many words"
}

# `take_program WORD ..` is for scripts that try a built program: where the first words are
# `--program PATH`, it sets `program` to this path, and `taken` to 2, the number of words that the
# script then shifts away.
take_program() {
    program='' taken=0
    [ "$1" = --program ] || return 0
    { [ -f "$2" ] && [ -x "$2" ]; } || refuse "there is no program '$2'"
    program=$(readlink -f -- "$2") taken=2
}

# `take_number WORD WHAT` refuses a word that isn't a number above 0.
take_number() {
    case $1 in '' | *[!0-9]* | 0*) refuse "$2 is a number above 0, and '$1' isn't" ;; esac
}

# `take_file WORD ..` is for scripts that read one text, of the file that is named or else of
# standard input.
take_file() {
    take_words 0 1 "$@"
    if [ $# = 1 ]; then
        { [ -r "$1" ] && [ ! -d "$1" ]; } || fail "$1 can't be read" 4
        exec <"$1"
    elif [ -t 0 ]; then
        echo "$script: the text is read from this terminal, up to Ctrl-D; '$script FILE' reads a file" \
            >&2
    fi
}
