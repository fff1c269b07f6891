# Sourced by the scripts beside it, not run. Checks the words of a command line before anything is built. A wrong word is named in one
# line on the error stream, with status 2.

script=differential/$(basename "$0")

refuse() { # WHY
    echo "$script: $* (--help shows the usage)" >&2
    exit 2
}

# Prints the usage, which is the indented part of the comment at the top of the script.
usage() {
    sed -n 's/^#   //p' "$0"
    exit 0
}

wants_help() { # WORD..
    local word
    for word in "$@"; do
        case $word in -h | --help) return 0 ;; esac
    done
    return 1
}

# Refuses a word that has no meaning in its place.
unexpected() { # WORD
    case $1 in
    -*) refuse "unknown option: $1" ;;
    *) refuse "unexpected word: $1" ;;
    esac
}

at_most() { # COUNT WORD..
    local count=$1
    shift
    [ $# -le "$count" ] || unexpected "${@:count+1:1}"
}

is_number() { # NAME WORD
    case $2 in
    -*) unexpected "$2" ;;
    '' | *[!0-9]* | ?????????????????????*) refuse "$1 must be a number: $2" ;;
    esac
}
