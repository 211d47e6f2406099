# Completion for bash of the command planbook. It goes to
# share/bash-completion/completions/planbook.

_planbook() {
    local word=${COMP_WORDS[COMP_CWORD]} before=${COMP_WORDS[COMP_CWORD - 1]} \
        verb=${COMP_WORDS[1]} options=
    COMPREPLY=()
    if [ "$COMP_CWORD" -eq 1 ] || { [ "$COMP_CWORD" -eq 2 ] && [ "$verb" = help ]; }; then
        local verbs='keygen check seal open show labels find pack unpack page note'
        [ "$COMP_CWORD" -eq 1 ] && verbs="$verbs help --help --version"
        mapfile -t COMPREPLY < <(compgen -W "$verbs" -- "$word")
        return
    fi
    case $verb in
    keygen) options='--bits' ;;
    check) options='--trials' ;;
    seal) options='--key --key-hex --way --trials --force' ;;
    open) options='--key --key-hex --way --trials --csv --force' ;;
    show) options='--key --key-hex --json --force' ;;
    labels) options='--json --force' ;;
    find) options='--key --key-hex --json' ;;
    pack | unpack) options='--trials --force' ;;
    page) options='--sheet --force' ;;
    note) options='--key --key-hex --counter --way --force' ;;
    esac
    case $before in
    --way) mapfile -t COMPREPLY < <(compgen -W '1 2 3' -- "$word") ;;
    --bits) mapfile -t COMPREPLY < <(compgen -W '128 192 256' -- "$word") ;;
    --counter | --sheet) ;; # digits: nothing to offer
    *)
        case $word in
        -*) mapfile -t COMPREPLY < <(compgen -W "$options --help" -- "$word") ;;
        *) compopt -o filenames 2>/dev/null && mapfile -t COMPREPLY < <(compgen -f -- "$word") ;;
        esac
        ;;
    esac
}

complete -F _planbook planbook
