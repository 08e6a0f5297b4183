# The front of the program, for the shells that run it (`pisa` here, and the one of a package): help, and a
# sentence for a person behind a status that has no fault line. Read by `.`; POSIX sh.

is_quiet() {
    [ "${PISA_QUIET-}" = 1 ]
}

# Puts the help that the words ask for on standard output: with none or `help` that of the program, with
# `help COMMAND` that of the command. Other words ask for none. $1 is the folder of the texts, $2 the
# file of the version.
help_for_words() {
    texts=$1
    version=$2
    shift 2
    case $#,${1-} in
        0,*) topic=pisa ;;
        1,help) topic=pisa ;;
        2,help) topic=$2 ;;
        *) return ;;
    esac
    case $topic in
        *[!a-z-]*) topic=pisa ;;
    esac
    [ -f "$texts/$topic.txt" ] || topic=pisa
    cat "$texts/$topic.txt"
    [ "$topic" != pisa ] || printf '\nThis is version %s.\n' "$(cat "$version")"
}

# Runs the program $1 on the further words, and ends with its status. Where a person reads standard error
# at a terminal, a sentence may follow it.
run_program() {
    program=$1
    shift
    if is_quiet || ! [ -t 2 ]; then
        exec "$program" "$@"
    fi
    "$program" "$@"
    status=$?
    meaning=$(meaning_of "$status" "$@")
    [ -z "$meaning" ] || printf 'pisa: status %d: %s\n' "$status" "$meaning" >&2
    exit "$status"
}

# One sentence on a status behind which no fault line stands, and nothing on another one.
meaning_of() {
    status=$1
    shift
    case $status in
        5)
            likely=$(likely_file "$@")
            echo "a file could not be read or written${likely:+, likely since $likely}." ;;
        6) echo 'standard output or standard error could not be written; is a disk full, or a reader gone?' ;;
        7) echo 'memory ran out.' ;;
        8) echo 'an instruction could not be done; the line sim_end has its address, how many were done, and why.' ;;
        9) meaning_of_budget "${1-}" ;;
    esac
}

meaning_of_budget() {
    budget='as many instructions were done as -max:inst lets (1,000,000,000 without it), and the program had not ended'
    case $1 in
        record) echo "$budget; or the trace was full." ;;
        *) echo "$budget." ;;
    esac
}

# The first file among the words that can't be read or written, in the order in which the program needs
# them, with what is wrong; nothing where all can be.
likely_file() {
    command=${1-}
    [ $# -eq 0 ] || shift
    wrong_config= wrong_object= wrong_read= wrong_write=
    case $command in
        asm)
            wrong_object=$(why_unread "${1-}")
            wrong_write=$(why_unwritten "${2-}") ;;
        dis) wrong_object=$(why_unread "${1-}") ;;
        sim-safe | record) look_at_run "$@" ;;
    esac
    printf '%s' "${wrong_config:-${wrong_object:-${wrong_read:-$wrong_write}}}" | tr '[:cntrl:]' '?'
}

# Looks at the files in the words of a run: those of options, and the object behind them.
look_at_run() {
    while [ $# -gt 1 ]; do
        case $1 in
            -config) wrong_config=$(why_unread "$2") ;;
            -commits | -o) wrong_write=${wrong_write:-$(why_unwritten "$2")} ;;
            -trace | -in | -file) wrong_read=${wrong_read:-$(why_unread "$2")} ;;
            -max:inst | -fastfwd | -restart) ;;
            -chkpt)
                [ $# -gt 2 ] || break
                shift ;;
            *) break ;;
        esac
        shift 2
    done
    wrong_object=$(why_unread "${1-}")
}

why_unread() {
    if [ -d "$1" ]; then
        printf '%s is a folder' "$1"
    elif ! [ -e "$1" ]; then
        printf '%s is not there' "$1"
    elif ! [ -r "$1" ]; then
        printf '%s may not be read' "$1"
    fi
}

why_unwritten() {
    folder=$(dirname -- "$1")
    if [ -d "$1" ]; then
        printf '%s is a folder' "$1"
    elif ! [ -d "$folder" ]; then
        printf 'the folder %s is not there' "$folder"
    elif [ -e "$1" ] && ! [ -w "$1" ]; then
        printf '%s may not be written' "$1"
    elif ! [ -e "$1" ] && ! [ -w "$folder" ]; then
        printf 'the folder %s may not be written' "$folder"
    fi
}
