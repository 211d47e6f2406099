# shellcheck shell=sh disable=SC2086,SC2154
# (command lines are split into arguments; samples and functions are those of tests/cli/run)
#
# Part of tests/cli/run: bad options, keys, books and CSV files. Each is refused with a clear
# sentence, and leaves nothing.

# What a message has in place of an argument or a field that may be a key.
not_shown="(not shown, since it may be a key)"

test_usage() {
    expect 2 "usage:"
    expect 2 "close is not a verb; planbook help lists them" close
    expect_nothing x 2 "seal has no option --kye; planbook seal --help lists them" \
        seal --kye key128 clear x
    expect_nothing x 2 "seal has no option --kye" seal --kye=key128 clear x
    expect_nothing x 2 "labels has no option --key" labels --key key128 sealed128 x
    expect_nothing x 2 "seal has no option -k" seal -k key128 clear x
    expect_nothing x 2 "seal has no option --ke" seal --ke key128 clear x
    expect_nothing x 2 "--key needs a value: FILE" seal clear x --key
    expect_nothing x 2 "--force is given twice" seal --force --key key128 --force clear x
    expect_nothing x 2 "--force takes no value" seal --force=yes --key key128 clear x
    # a key can be made where one seals; to open, the one that was used is needed
    needs="needs a key, by either --key or --key-hex"
    expect_exactly 2 "planbook: seal $needs; planbook keygen makes one" seal clear x
    for line in "open sealed128" "note --counter $counter note" "find sealed128"; do
        expect_exactly 2 "planbook: ${line%% *} $needs" $line x
    done
    expect_exactly 2 \
        "planbook: --key and --key-hex are both given, but a key is read from one file" \
        seal --key key128 --key-hex hex128 clear x
    expect_exactly 2 \
        "planbook: --key and --key-hex are both given, but a key is read from one file" \
        show --key key128 --key-hex hex128 sealed128 x
    said="planbook: note needs a counter block, by --counter: for a new note 32 hexadecimal digits"
    said="$said that were never used under its key, for a sealed note those that it was sealed from"
    expect_exactly 2 "$said" note --key key128 note x
    holds "nothing is made without a counter block" [ ! -e x ]
    expect_nothing x 2 "--counter needs a value: HEX" note --key key128 note x --counter
    expect_nothing x 2 "--counter is given twice" \
        note --key key128 --counter $counter --counter=$counter note x
    for verb in seal open show; do
        expect_nothing x 2 "$verb has no option --counter; planbook $verb --help lists them" \
            $verb --key key128 --counter $counter clear x
    done
    expect_nothing x 2 "note has no option --trials" \
        note --key key128 --counter $counter --trials trials.csv note x
    expect_nothing x 2 "y is one operand too many: note takes [NOTE [OUT]]" \
        note --key key128 --counter $counter note x y
    expect_nothing x 2 "y is one operand too many: seal takes [PLAN | CLEAR [SEALED]]" \
        seal --key key128 clear x y
    expect_nothing x 2 "y is one operand too many: page takes [CLEAR [TEXT]]" page clear x y
    expect_nothing x 2 "--sheet needs a value: N" page clear x --sheet
    expect_nothing x 2 "--sheet is given twice" page --sheet 0 --sheet=0 clear x
    for option in --key --key-hex --way --trials --json; do
        expect_nothing x 2 "page has no option $option; planbook page --help lists them" \
            page $option 1 clear x
    done
    for verb in show unpack labels; do
        expect_nothing x 2 "$verb has no option --sheet; planbook $verb --help lists them" \
            $verb --sheet 0 clear x
    done
    expect_nothing x 2 "only one of the inputs" seal --key - - x
    expect_nothing x 2 "only one of the inputs" pack --trials - - x
    expect_nothing x 2 "only one of the inputs" note --key - --counter $counter - x
    expect_nothing x 2 "cannot both go to standard output" unpack --trials - clear
    for way in two -1 +2 2x '' ' 2'; do
        expect_nothing x 2 "--way takes a number: $way" seal --key key128 --way "$way" clear x
    done
    expect_nothing x 2 "--way takes a number: $not_shown" \
        seal --key key128 --way 18446744073709551616 clear x
    # after --, an argument is no option
    cp clear ./--force
    expect 0 "" seal --key key128 -- --force x
    same x sealed128
    expect 2 "is one operand too many" seal --key key128 -- clear x --force
    rm -f x ./--force
    cp clear ./-h
    expect 0 "" show -- -h
    rm -f ./-h
}

test_help() {
    verbs='keygen|check|seal|open|show|labels|find|pack|unpack|page|note'
    for asked in --help -h help; do
        expect 0 "" $asked
        holds "$asked names every verb" [ "$(grep -cE "planbook ($verbs) " out)" -eq 11 ]
        holds "$asked says what each does" [ "$(grep -cE "^  ($verbs) +[A-Z]" out)" -eq 11 ]
    done
    for verb in $(echo $verbs | tr '|' ' '); do
        "$planbook" --help | sed -n "s/.*\(planbook $verb .*\)/usage: \1/p" >wanted
        for asked in "help $verb" "$verb --help" "$verb -h" "$verb x --help"; do
            expect 0 "" $asked
            head -n 1 out >first
            same first wanted
        done
    done
    expect 0 "" seal --help
    holds "the help of seal has its options" \
        [ "$(grep -cE '^  --(key|key-hex|way|trials|force) ' out)" -eq 5 ]
    holds "and no others" [ "$(grep -cE '^  --' out)" -eq 5 ]
    expect 0 "" note --help
    said="usage: planbook note --key FILE | --key-hex FILE --counter HEX [--way N] [--force]"
    holds "the usage of note" grep -qxF "$said [NOTE [OUT]]" out
    holds "the help of note has its options" \
        [ "$(grep -cE '^  --(key|key-hex|counter|way|force) ' out)" -eq 5 ]
    holds "and no others" [ "$(grep -cE '^  --' out)" -eq 5 ]
    expect 0 "" page --help
    holds "the usage of page" \
        grep -qxF "usage: planbook page [--sheet N] [--force] [CLEAR [TEXT]]" out
    holds "the help of page has its options" [ "$(grep -cE '^  --(sheet|force) ' out)" -eq 2 ]
    holds "and no others" [ "$(grep -cE '^  --' out)" -eq 2 ]
    expect 2 "close is not a verb" help close
    expect 2 "seal is one operand too many after --help" --help seal
    expect 2 "x is one operand too many after seal" help seal x
    expect 2 "x is one operand too many after --version" --version x
    expect 0 "" --version
    sed -n 's/^#define PLANBOOK_VERSION "\(.*\)"/planbook \1/p' "$here/include/planbook.h" >wanted
    same out wanted
}

# Names that can be printed are shown, but not such as may be a key.
test_names() {
    missing="No such file or directory"
    for name in 'Zuckerrübe €' 'a "b" c' '𝄞' season-26 20261117123456.csv \
        123e4567-e89b-12d3-a456-426614174000 0123456789abcdeg; do
        expect_exactly 2 "planbook: cannot open $name: $missing" show "$name"
    done
    for name in "$(printf 'a\033[2Jb')" "$(printf 'a\nb')" "$(printf 'a\177')" \
        "$(printf '\302\233')" "$(printf '\303')" "$(printf '\377\303')" "$(printf '\303x')" \
        0123456789abcdef 0123456789ABCDEF.csv x-01:23:45:67:89:ab:cd:ef '01234567 89abcdef'; do
        expect_exactly 2 "planbook: cannot open $not_shown: $missing" show "$name"
        expect_exactly 2 "planbook: $not_shown is not a verb; planbook help lists them" "$name"
        cp clear "$name"
        expect_exactly 1 \
            "planbook: $not_shown is a clear book, and a sealed one is needed here [check 6]" \
            labels "$name"
        expect_exactly 2 \
            "planbook: $not_shown exists: name another output, or replace it with --force" \
            show clear "$name"
        rm -f "$name"
    done
}

# What is said of a sealed book under check 11.
not_opened="does not open under this key: most likely it was sealed under another one, or changed"
not_opened="$not_opened since; or a version before 2.0 sealed it, with a plot that is no longer"
not_opened="$not_opened permitted"

test_keys() {
    umask 077
    not_a_length="bytes long, not 16, 24 or 32 [check 1]"
    for length in 0 15 17 23 25 31 33 999; do
        head -c $length /dev/zero >short
        for line in "seal --key short clear" "note --key short --counter $counter note"; do
            expect_nothing x 1 "the key in short is $length $not_a_length" $line x
        done
    done
    # a longer file is not read to its end, so its length is not known
    head -c 4096 /dev/zero >short
    expect_nothing x 1 "the key in short is 4,096 bytes long, not 16, 24 or 32 [check 1]" \
        seal --key short clear x
    for length in 4097 5000 100000; do
        head -c $length /dev/zero >short
        expect_nothing x 1 \
            "the key in short is more than 4,096 bytes long, not 16, 24 or 32 [check 1]" \
            seal --key short clear x
    done
    echo 00112233445566778899aabbccddee >short
    expect_nothing x 1 "the key in short is 15 bytes long, not 16, 24 or 32 [check 1]" \
        open --key-hex short sealed128 x
    expect_nothing x 1 "the key in empty is 0 bytes long, not 16, 24 or 32 [check 1]" \
        open --key-hex empty sealed128 x
    # a key in hexadecimal is not taken for raw bytes
    for bits in 128 192 256; do
        said="is all hexadecimal digits: take --key-hex for a key that is written so"
        expect_exactly 2 "planbook: hex$bits $said" open --key hex$bits sealed$bits x
        tr -d '\n' <hex$bits >digits
        expect_nothing x 2 "digits is all hexadecimal digits: take --key-hex" \
            open --key digits sealed$bits x
        { cat digits; printf '\r\n'; } >lines
        expect_nothing x 2 "lines is all hexadecimal digits: take --key-hex" \
            open --key lines sealed$bits x
    done
    printf 0123456789abcdeF >digits
    expect_nothing x 2 "digits is all hexadecimal digits: take --key-hex" seal --key digits clear x
    printf 0123456789abcdeg >digits
    expect 0 "" seal --key digits clear x
    rm -f x
    printf '%s\n\n' $key128 >lines
    expect_nothing x 2 "byte 33 of the key is not a hexadecimal digit" \
        open --key-hex lines sealed128 x
    printf '%s\r\n' $key128 >lines
    expect_nothing x 2 "byte 33 of the key is not a hexadecimal digit" \
        open --key-hex lines sealed128 x
    echo 0x112233445566778899aabbccddeeff >digits
    expect_nothing x 2 "byte 2 of the key is not a hexadecimal digit" \
        open --key-hex digits sealed128 x
    echo 0112233445566778899aabbccddeeff >digits
    expect_nothing x 2 "odd number of hexadecimal digits, 31" open --key-hex digits sealed128 x
    expect_nothing x 2 "not a hexadecimal digit" open --key-hex key128 sealed128 x
    expect_nothing x 2 \
        "the key in /dev/zero is more than 4,096 bytes long, and a key has 32, 48 or 64 digits" \
        open --key-hex /dev/zero sealed128 x
    expect_nothing x 2 "cannot open missing: No such file" open --key missing sealed128 x
    expect_nothing x 2 "cannot read folder: Is a directory" open --key folder sealed128 x
    # the key in place of the name of its file, and a file with such a name
    said="takes the name of the file that has the key; no file has the name that is given, which is"
    for option in --key --key-hex; do
        expect_exactly 2 "planbook: $option $said not shown, since it may be the key itself" \
            open $option $key128 sealed128 x
    done
    cp key128 $key128
    expect 0 "" open --key $key128 sealed128
    same out clear
    rm -f $key128
    for way in 0 4 257 4294967297 18446744073709551615; do
        for line in "seal --key key128 clear" "note --key key128 --counter $counter note"; do
            expect_exactly 1 "planbook: --way $way: the ways are 1, 2 and 3 [check 2]" \
                $line x --way $way
        done
    done
    # of several faults one is reported: that of the key before that of the way, and both before
    # those of the book
    head -c 15 /dev/zero >short
    unhex 03000000 >damaged
    for line in "seal --key short --way 4 clear" "seal --key short --way 4 damaged" \
        "open --key short --way 4 sealed128" "open --key short --way 4 damaged" \
        "seal --key short plan.csv" "show --key short damaged" "seal --key short damaged" \
        "open --key short damaged"; do
        expect_exactly 1 "planbook: the key in short is 15 bytes long, not 16, 24 or 32 [check 1]" \
            $line x
        holds "nothing is made under a key of 15 bytes" [ ! -e x ]
    done
    for line in "seal --key key128 --way 4 damaged" "open --key-hex hex192 --way 4 damaged" \
        "seal --key key256 --way 4 plan.csv"; do
        expect_exactly 1 "planbook: --way 4: the ways are 1, 2 and 3 [check 2]" $line x
        holds "nothing is made by a fourth way" [ ! -e x ]
    done
    expect_nothing x 2 "--way takes a number: two" open --key missing --way two damaged x
    expect_nothing x 2 "cannot open missing: No such file" open --key missing --way 4 damaged x
    # but a plan is packed, and a plot found, before the key is asked for
    printf 'trial,entry,replicate,row,column\n41,7,5,12,3\n' >bad.csv
    expect_nothing x 1 "bad.csv, line 2: replicate 5, but trial 41 has 4" \
        seal --key missing bad.csv x
    expect 1 "damaged is no sealed plan book" find --key missing damaged 41 0
    expect 1 "sealed128 has no trial 42" find --key missing sealed128 42 0
    expect_exactly 1 "planbook: sealed128 $not_opened [check 11]" open --key key256 sealed128 x
    holds "nothing is made under a wrong key" [ ! -e x ]
    # a key that others may read
    for mode in 644 640 604; do
        cp key128 open-key
        chmod $mode open-key
        said="planbook: warning: open-key may be read by others (mode $mode)"
        expect_exactly 0 "$said; chmod 600 keeps it to you" open --key open-key sealed128
        same out clear
    done
    cp hex128 open-key
    chmod 644 open-key
    expect 0 "warning: open-key may be read by others" open --key-hex open-key sealed128
    chmod 622 open-key
    expect 0 "" open --key-hex open-key sealed128
    umask 022
}

# bad_clear CHECK SENTENCE HEX..: a clear book that sealing, show, unpack and page refuse, whatever
# sheet the page is of.
bad_clear() {
    message="planbook: damaged$2 [check $1]"
    shift 2
    unhex "$@" >damaged
    expect_exactly 1 "$message" seal --key key128 damaged x
    expect_exactly 1 "$message" show damaged x
    expect_exactly 1 "$message" unpack --trials y damaged x
    expect_exactly 1 "$message" page damaged x
    expect_exactly 1 "$message" page --sheet 64 damaged x
    holds "no plan or page of a refused book" [ ! -e x ]
    holds "no trials of a refused book" [ ! -e y ]
}

# bad_sealed CHECK SENTENCE HEX..: a sealed book that opening, labels and find refuse.
bad_sealed() {
    message="planbook: damaged$2 [check $1]"
    shift 2
    unhex "$@" >damaged
    expect_exactly 1 "$message" open --key key128 damaged x
    expect_exactly 1 "$message" labels damaged x
    expect_exactly 1 "$message" find --key key128 damaged 41 0
    holds "nothing is made of a refused book" [ ! -e x ]
}

test_books() {
    bad_clear 5 " has 0 bytes, and a plan book has at least 4"
    bad_clear 5 " has 3 bytes, and a plan book has at least 4" 010000
    bad_clear 6 " is no clear plan book: it does not begin with 01 00" 03000000
    bad_clear 6 " is no clear plan book: it does not begin with 01 00" 01010000
    bad_clear 7 " says that it has 65 trials, and a plan book has at most 64" 01000041
    bad_clear 8 " has 12 bytes, but the contents of its 1 trials need 28: its end is missing" \
        01000001 0000002900010000
    bad_clear 9 ": trial 41 has 0 plots, and a trial has 1 to 1,024" 01000001 0000002900000000$start
    bad_clear 9 ": trial 41 has 1,025 plots, and a trial has 1 to 1,024" \
        01000001 0000002904010000$start
    bad_clear 9 ", sheet 0: trial 0, but trials begin at 1" 01000001 0000000000010000$start $record
    bad_clear 9 ", sheet 1: trial 41 comes after trial 41, but trials must rise" \
        01000002 $entry $entry $record $record
    bad_clear 9 ": trial 41 has 9 replicates, and a trial has at most 8" \
        01000001 0000002900010900$start $record
    bad_clear 9 ": trial 41 has 255 replicates, and a trial has at most 8" \
        01000001 000000290001ff00$start $record
    bad_clear 9 ": the reserved byte of trial 41 in the contents is not zero" \
        01000001 0000002900010001$start $record
    bad_clear 10 " has 28 bytes, but its contents say 44: its end is missing" 01000001 $entry
    bad_clear 10 " has 45 bytes, but its contents say 44: something was added" \
        01000001 $entry $record 00
    bad_clear 11 ", trial 41, place 0: replicate 5, but trial 41 has 4, the default" \
        01000001 $entry 000000290000000705000c0003000000
    bad_clear 11 ", trial 41, place 0: replicate 5, but trial 41 has 4" \
        01000001 0000002900010400$start 000000290000000705000c0003000000
    bad_clear 11 ", trial 41, place 0: replicate 2, but trial 41 has 1" \
        01000001 0000002900010100$start $record
    bad_clear 11 ", trial 41, place 0: replicate 9, but trial 41 has 8" \
        01000001 0000002900010800$start 000000290000000709000c0003000000
    bad_clear 11 ", trial 41, place 0: replicate 0, but replicates begin at 1" \
        01000001 $entry 000000290000000700000c0003000000
    bad_clear 11 ", trial 41, place 1: entry 0, but entries begin at 1" \
        01000001 0000002900020000$start $record 000000290000000001000c0003000000
    bad_clear 11 ", trial 41, place 0: a record of trial 42 in the sheet of trial 41" \
        01000001 $entry 0000002a0000000702000c0003000000
    bad_clear 11 ", trial 41, place 0: the last three bytes of the record are not zero" \
        01000001 $entry 000000290000000702000c0003000001
    # of several faults in one record the first by the rule is reported: trial, entry, replicate,
    # plot, zero bytes
    bad_clear 11 ", trial 41, place 0: a record of trial 42 in the sheet of trial 41" \
        01000001 $entry 0000002a0000000000ffffffff000001
    bad_clear 11 ", trial 41, place 0: entry 0, but entries begin at 1" \
        01000001 $entry 000000290000000000ffffffff000001
    bad_clear 11 ", trial 41, place 0: replicate 0, but replicates begin at 1" \
        01000001 $entry 000000290000000700ffffffff000001
    bad_clear 11 ", trial 41, place 0: replicate 5, but trial 41 has 4, the default" \
        01000001 $entry 000000290000000705ffffffff000001
    bad_clear 11 ", trial 41, place 0: row 65535, but rows are from 1 to 999, or 0 in reserve" \
        01000001 $entry 000000290000000702ffffffff000001
    bad_clear 11 \
        ", trial 41, place 0: column 65535, but columns are from 1 to 999, or 0 in reserve" \
        01000001 $entry 0000002900000007020000ffff000001
    bad_sealed 5 " has 0 bytes, and a plan book has at least 4"
    bad_sealed 5 " has 3 bytes, and a plan book has at least 4" 020000
    bad_sealed 6 " is a clear book, and a sealed one is needed here" 01000001 $entry $record
    bad_sealed 6 " is no sealed plan book: it does not begin with 02 00" 02010000
    bad_sealed 7 " says that it has 65 trials, and a plan book has at most 64" 02000041
    bad_sealed 8 " has 8 bytes, but the contents of its 1 trials need 28: its end is missing" \
        02000001 00000029
    bad_sealed 9 ": trial 41 has 1,025 plots, and a trial has 1 to 1,024" \
        02000001 0000002904010000$start
    bad_sealed 9 ": trial 41 has 9 replicates, and a trial has at most 8" \
        02000001 0000002900010900$start $cipher128
    bad_sealed 9 ": the reserved byte of trial 41 in the contents is not zero" \
        02000001 0000002900010001$start $cipher128
    bad_sealed 10 " has 32 bytes, but its contents say 44: its end is missing" \
        02000001 $entry de2bf2fd
    bad_sealed 10 " has 45 bytes, but its contents say 44: something was added" \
        02000001 $entry $cipher128 00
    expect_exactly 1 \
        "planbook: sealed128 is sealed already, and a clear book is needed here [check 6]" \
        seal --key key128 sealed128 x
    expect_exactly 1 \
        "planbook: sealed128 is sealed already, and a clear book is needed here [check 6]" \
        unpack sealed128 x
    expect_exactly 1 "planbook: clear is a clear book, and a sealed one is needed here [check 6]" \
        show --key key128 clear x
    expect_exactly 1 "planbook: plan.csv is text, and a plan book is needed here [check 6]" \
        show plan.csv x
    expect_exactly 1 "planbook: plan.csv is text, and a plan book is needed here [check 6]" \
        open --key key128 plan.csv x
    bad_clear 6 " is no clear plan book: it does not begin with 01 00" 41424344 0a000000
    bad_sealed 6 " is no sealed plan book: it does not begin with 02 00" ffd8ffe0 00104a46
    for verb in "seal --key key128" "open --key key128" show labels unpack page; do
        expect_nothing x 1 \
            "/dev/zero is longer than a plan book can be, which is 65,532 bytes [check 5]" \
            $verb /dev/zero x
    done
    head -c 43 sealed128 >in
    said="planbook: standard input has 43 bytes, but its contents say 44: its end is missing"
    expect_exactly 1 "$said [check 10]" show
    expect_nothing x 2 "cannot open missing: No such file" seal --key key128 missing x
    expect_nothing x 2 "cannot read folder: Is a directory" show folder x
}
