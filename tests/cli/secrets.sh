# shellcheck shell=sh disable=SC2086,SC2154
# (command lines are split into arguments; samples and functions are those of tests/cli/run)
#
# Part of tests/cli/run: no message shows a key or a clear record, wherever it was given by mistake.
# These are many runs, so the command is the unsanitized one. SECRETS is the number of digests that
# keys are drawn from (default 1).

# with_secret FILE ARGUMENTS..: runs the command, where @ means the file, and adds its messages
# to the file messages.
with_secret() {
    secret_file=$1
    shift
    for argument in "$@"; do
        shift
        [ "$argument" != @ ] || argument=$secret_file
        set -- "$@" "$argument"
    done
    "$plain" "$@" </dev/null >/dev/null 2>>messages
    status=$?
    runs=$((runs + 1))
    [ $status -le 2 ] || bad "planbook $*: exit status $status"
    rm -f x y x.csv
}

# Every verb, with the file for each of its inputs.
give_file() {
    for line in "check @" "check --trials @ plan.csv" "check --trials trials.csv @" \
        "seal --key key128 @ x" "seal --key @ clear x" "seal --key-hex @ clear x" \
        "seal --key @ @ x" "seal --key-hex @ @ x" "seal --key key128 --trials @ plan.csv x" \
        "seal --key key128 --trials trials.csv @ x" "seal --key @ --trials @ plan.csv x" \
        "seal --key key128 --way @ clear x" "open --key key128 @ x" \
        "open --key key128 --trials y @ x.csv" "open --key @ sealed128 x" \
        "open --key-hex @ sealed128 x" "show @" "show --json @" "show --key key128 @" \
        "show --key @ sealed128" "show --key-hex @ sealed128" "labels @" "labels --json @" \
        "find --key key128 @ 41 0" "find --key @ sealed128 41 0" "find --key-hex @ sealed128 41 0" \
        "pack @ x" "pack --trials @ plan.csv x" "unpack @ x" "unpack --trials y @ x" "page @ x" \
        "page --sheet 1 @" "note --key key128 --counter $counter @ x" \
        "note --key @ --counter $counter note x" "note --key-hex @ --counter $counter note x" \
        "keygen @" "seal --key key128 clear @"; do
        with_secret "$1" $line
    done
}

# Every place of the command line, with the text itself. An output of that name is not made: its
# folder is missing.
give_text() {
    for line in "@" "help @" "help @ x" "help seal @" "--version @" "check @" "check plan.csv @" \
        "check --trials @ plan.csv" "seal --key @ clear x" "seal --key-hex @ clear x" \
        "seal --key key128 @ x" "seal --key key128 clear x @" "seal --key key128 --way @ clear x" \
        "open --key @ sealed128 x" "open --key-hex @ sealed128 x" "open --key key128 @ x" "show @" \
        "show --key @ sealed128" "labels @" "find --key key128 sealed128 @" \
        "find --key key128 sealed128 @ 0" "find --key key128 sealed128 41 @" \
        "find --key key128 @ 41 0" "pack @ x" "unpack @ x" "page @ x" "page --sheet @ clear x" \
        "note --key key128 --counter @ note x" "note --key @ --counter $counter note x" \
        "note --key-hex @ --counter $counter note x" "note --key key128 --counter $counter @ x" \
        "keygen --bits @ x"; do
        with_secret "$1" $line
    done
    with_secret "--$1" seal --key key128 @ clear x
    with_secret "-$1" seal --key key128 @ clear x
    with_secret "--key=$1" seal @ clear x
    with_secret "--key-hex=$1" seal @ clear x
    with_secret "--key-hex=$1" @ clear x
    with_secret "--force=$1" seal --key key128 @ clear x
    with_secret "--counter=0x$1" note --key key128 @ note x
    with_secret "missing/$1" seal --key key128 clear @
    with_secret "missing/$1" unpack --trials @ clear x
    with_secret "missing/$1" keygen @
}

# Files that are a plan or a file of trials, but for one place where the text is.
give_in_csv() {
    for header_and_line in "$header,$1/$good,1" "$header/41,$1,2,12,3" "$header/$1,7,2,12,3" \
        "$header/41,7,2,12,$1" "$1,$header/1,$good" "$1/$good"; do
        printf '%s\n%s\n' "${header_and_line%%/*}" "${header_and_line#*/}" >secret.csv
        with_secret secret.csv check @
        with_secret secret.csv seal --key key128 @ x
    done
    for header_and_line in "trial,start_block/41,$1" "trial,start_block/41,${1}0" \
        "trial,start_block/41,0x$1" "trial,$1/41,0" "trial,replicates/41,$1" \
        "trial,replicates/$1,0" "replicates,$1/0,41"; do
        printf '%s\n%s\n' "${header_and_line%%/*}" "${header_and_line#*/}" >secret.csv
        with_secret secret.csv check --trials @ plan.csv
        with_secret secret.csv pack --trials @ plan.csv x
    done
    rm -f secret.csv
}

# shows HEX FILE: whether the file has three bytes of these in a row, as they are or in hexadecimal.
shows() {
    echo "$1" | awk '{
        for (i = 1; i + 5 <= length($0); i += 2) {
            three = substr($0, i, 6)
            print three
            print substr(three, 1, 2) " " substr(three, 3, 2) " " substr(three, 5, 2)
        }
    }' >threes
    { tr A-F a-f <"$2"; od -An -v -tx1 "$2" | tr -d '\n'; echo; } | grep -qFf threes
}

# not_shown_anywhere PLACES HEX: the bytes as a raw file, or for PLACES all in every place where a
# file or a text can be given.
not_shown_anywhere() {
    : >messages
    runs=0
    unhex "$2" >secret.raw
    echo "$2" >secret.hex
    { echo "$2" | tr a-f A-F | tr -d '\n'; printf '\r\n'; } >secret.upper
    chmod 600 secret.raw secret.hex secret.upper
    give_file secret.raw
    if [ "$1" = all ]; then
        give_file secret.hex
        give_file secret.upper
        give_text "$2"
        give_text "$(echo "$2" | tr a-f A-F)"
        give_text "$(echo "$2" | sed -e 's/../&:/g' -e 's/:$//')"
        give_text "$(echo "$2" | sed -e 's/....../& /g')"
        give_in_csv "$2"
    fi
    if shows "$2" messages; then
        bad "a message shows a part of the secret $2; the messages are: $(cat messages)"
    else
        pass
    fi
    holds "most places drew a message with $2" [ "$(wc -l <messages)" -gt $((runs / 2)) ]
    rm -f secret.raw secret.hex secret.upper
}

test_secrets() {
    # the search itself finds what it looks for
    unhex 58595a $key128 >planted
    holds "raw bytes are found" shows $key128 planted
    echo "it begins with FFEEDD" >planted
    holds "hexadecimal digits are found" shows $key128 planted
    echo "it begins with ff ee" >planted
    if shows $key128 planted; then bad "two bytes are taken for three"; else pass; fi
    for seed in $(seq 1 "${SECRETS:-1}"); do
        digest=$(echo "secret $seed" | sha256sum)
        for digits in 32 48 64; do
            not_shown_anywhere all "$(echo "$digest" | cut -c 1-$digits)"
        done
    done
    not_shown_anywhere all $record
    # keys that are text, that have quotes and line feeds, or that begin like a book, with the mark
    # of UTF-8 or of UTF-16
    for secret in 4b71372c78503b6d5a32774c39745276 7c41427e227820792c5a0a4b4c4d4e4f \
        22efcd0a41b35c6d7e8f90a1b2c3d4e5 0100000129ab54cd31e07b66f51a9302 \
        02000001c8d19e3b7a60254f8819e2d3 0100004271c3a5950d2be8f64497d16e08bc35fa91270e5c \
        fffe4100b342c70068d15500a94ee300 efbbbf5d7e40238d5b2f7c21265e3f3a; do
        not_shown_anywhere raw $secret
    done
}
