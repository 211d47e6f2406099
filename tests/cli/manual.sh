# shellcheck shell=sh disable=SC2086,SC2154
# (command lines are split into arguments; samples and functions are those of tests/cli/run)
#
# Part of tests/cli/run: the completion of bash, the manual page and the program in the README.

# completes ARGUMENT..: what bash offers for the last of the arguments.
completes() {
    bash -c '. "$1/cli/planbook.bash"; shift; compopt() { :; }
        COMP_WORDS=(planbook "$@"); COMP_CWORD=$#; _planbook
        printf "%s\n" "${COMPREPLY[@]}"' bash "$here" "$@"
}

test_completion() {
    if ! command -v bash >/dev/null; then
        skip "the completion: no bash"
        return
    fi
    verbs=$("$planbook" --help | sed -n 's/^  \([a-z]*\) .*/\1/p')
    completes "" | grep -v -e '^help$' -e '^--' >got
    printf '%s\n' $verbs >wanted
    same got wanted
    completes help "" >got
    same got wanted
    for verb in $verbs; do
        "$planbook" help "$verb" | sed -n 's/^  \(--[a-z-]*\) .*/\1/p' >wanted
        completes "$verb" -- | grep -v '^--help$' >got
        holds "the completion has the options of $verb" cmp -s got wanted
    done
    [ "$(completes seal --way '' | tr '\n' ' ')" = "1 2 3 " ] || bad "the completion of --way"
    [ "$(completes keygen --bits 1 | tr '\n' ' ')" = "128 192 " ] || bad "the completion of --bits"
    [ -z "$(completes note --counter '')" ] || bad "the completion of --counter, which is no file"
    [ -z "$(completes page --sheet '')" ] || bad "the completion of --sheet, which is no file"
    [ "$(completes seal --key hex19)" = hex192 ] || bad "the completion of a file name"
    [ "$(completes se)" = seal ] || bad "the completion of a verb"
}

test_manual() {
    cd "$here" || exit 2
    if command -v groff >/dev/null; then
        holds "groff finds nothing wrong with the manual page" \
            [ -z "$(groff -mandoc -ww -z cli/planbook.1 2>&1)" ]
    else
        skip "the manual page: no groff"
    fi
    for option in $("$planbook" --help | grep -oE -e '--[a-z-]+' | sort -u); do
        holds "the manual page has $option" grep -qE -e "Fl ${option#-}( |\$)" cli/planbook.1
    done
    for verb in $("$planbook" --help | sed -n 's/^  \([a-z]*\) .*/\1/p'); do
        holds "the manual page has $verb in its synopsis and its list" \
            [ "$(grep -cE "^(\.It )?\.?Cm $verb\$|^\.It Cm $verb\$" cli/planbook.1)" -ge 2 ]
    done
    if [ -f README.md ]; then
        # the program as the README prints it, between its first line and the closing fence
        sed -n '/^\/\* Seals clear books, each into the file/,/^```/p' README.md | sed '/^```/d' \
            >"$work/readme.c"
        same "$work/readme.c" examples/seal_book.c
    fi
    cd "$work" || exit 2
}
