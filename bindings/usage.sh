# shellcheck shell=sh
# Read by the scripts here and in oracle/ before they do anything: what they answer to --help, and to words that make no
# sense.

# Ends the script if --help is all that it was given, with the comment at its top.
answer_help() {
    [ "$#${1:-}" = "1--help" ] || return 0
    sed -n '1d; /^#/!q; s/^# \{0,1\}//; p' "$0"
    exit 0
}

# Ends the script, telling the words that it takes.
refuse_words() { # [WORDS]
    echo "usage: ${0##*/}${1:+ $1}" >&2
    exit 2
}

# For a script that takes no words.
take_no_words() {
    answer_help "$@"
    [ $# = 0 ] || refuse_words
}

# For a script that takes names alone, so many of them: none is empty or begins with a dash.
take_names() { # LEAST MOST WORDS NAME..
    least=$1 most=$2 words=$3
    shift 3
    answer_help "$@"
    if [ $# -lt "$least" ] || [ $# -gt "$most" ]; then
        refuse_words "$words"
    fi
    for name in "$@"; do
        case $name in
        '' | -*) refuse_words "$words" ;;
        esac
    done
}

# For a script that takes two numbers at most.
take_count_and_seed() {
    answer_help "$@"
    [ $# -le 2 ] || refuse_words "[COUNT [SEED]]"
    for number in "$@"; do
        is_number "$number" || refuse_words "[COUNT [SEED]]"
    done
}

is_number() {
    case $1 in
    '' | *[!0-9]*) return 1 ;;
    esac
}
