# Completes the words of nomutanku in bash; tests/options.py holds it to the program's own help.
# shellcheck shell=bash

_nomutanku() {
    local word=${COMP_WORDS[COMP_CWORD]} before=${COMP_WORDS[COMP_CWORD - 1]} command='' options='' each
    COMPREPLY=()
    for each in "${COMP_WORDS[@]:1:COMP_CWORD-1}"; do
        case $each in
        # files alone stand behind it
        --) return ;;
        -*) ;;
        *) command=${command:-$each} ;;
        esac
    done
    case $command in
    '') options='list rows record extract merge explain help --help --version' ;;
    list) options='--base --mft --size --first --all --find --names --strict --json --help' ;;
    rows) options='--json --help' ;;
    record) options='--number --json --help' ;;
    extract) options='--size --first --from --count -o --help' ;;
    merge) options='-o --help' ;;
    explain) options='--help' ;;
    help) options='list rows record extract merge explain help' ;;
    esac
    case $before in
    # a number comes here, or a name, and no file
    --base | --number | --size | --first | --from | --count | --find) compopt +o default 2>/dev/null ;;
    *) mapfile -t COMPREPLY < <(compgen -W "$options" -- "$word") ;;
    esac
}
complete -o default -F _nomutanku nomutanku
