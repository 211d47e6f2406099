# shellcheck shell=sh disable=SC2034,SC2086,SC2154
# (eval reads the round keys; command lines are split into arguments; samples and functions are
# those of tests/cli/run)
#
# Part of tests/cli/run: no key, words of a key, clear record, line of a plan or a page, or text of
# a note is left in memory when the command ends.
#
# tests/cli/faults.c looks through all writable memory at the very end. That it can find something
# is seen in tests/cli/bugs, where commands that do not wipe are caught by it.

# Replicate, row and column of the sample record as the command holds them in numbers; the first two
# and the last two round keys of each key as the CLEFIA specification prints them, which are words
# of the expanded key; the sample's line of a plan as text.
numbers=020000000c00000003000000
round_keys128="f3e6cef98df75e38 b19d05545142f434"
round_keys192="4d3bfd1b7a1f5dfa 6288bc72c0ad856b"
round_keys256="58f0202915413cd0 33e01cb980251e1c"
line_text=34312c372c322c31322c33 # 41,7,2,12,3
# the row of show from the entry's column on
row_text=2020202020202020203720202020202020202032202020203132
page_text=34312020202020202020202037203220203132202020330a # the page's line from the trial on

hex_of() { printf %s "$1" | od -An -v -tx1 | tr -d ' \n'; }

# words_of BITS: what to look for of a key's words: as they are given to the calls, and in the order
# of bytes that the processor has.
words_of() {
    eval "set -- \$round_keys$1"
    echo "$1,$2,$(echo "$1,$2" | sed 's/\(..\)\(..\)\(..\)\(..\)/\4\3\2\1/g')"
}

# nothing_left WHAT STATUS HEX ARGUMENTS..
nothing_left() {
    what=$1
    wanted=$2
    export SCAN="$3"
    shift 3
    # the search for functions at their first call would overwrite parts of the stack
    export LD_BIND_NOW=1
    with_fault "${when:-scan},count" "$@"
    judge "$what after planbook $*" "$wanted" "nothing was left" $?
    ! grep -q '^left' "$work/err" || bad "$what after planbook $*: in one of several searches"
    unset SCAN LD_BIND_NOW
    rm -f x y x.csv
}

test_wiped_memory() {
    for verb in "seal --key key128 clear" "open --key key128 sealed128" \
        "show --key key128 sealed128" "seal --key key128 plan.csv" \
        "open --csv --key key128 sealed128" "find --key key128 sealed128 41 0"; do
        nothing_left "the key" 0 $key128 $verb
        nothing_left "the clear record" 0 $record $verb
        nothing_left "the clear record's numbers" 0 $numbers $verb
    done
    for bits in 128 192 256; do
        for verb in "seal --key key$bits clear" "open --key key$bits sealed$bits" \
            "show --key key$bits sealed$bits" "seal --key key$bits plan.csv" \
            "open --csv --key-hex hex$bits sealed$bits" "find --key key$bits sealed$bits 41 0"; do
            nothing_left "the key's words" 0 "$(words_of $bits)" $verb
        done
    done
    for verb in "pack plan.csv x" "unpack --trials y clear x" "unpack clear" \
        "seal --key key128 plan.csv x" "check plan.csv" "open --key key128 sealed128 x.csv"; do
        nothing_left "the plan's line" 0 $line_text $verb
        nothing_left "the clear record" 0 $record $verb
        nothing_left "the clear record's numbers" 0 $numbers $verb
    done
    nothing_left "the row of the table" 0 $row_text show clear
    nothing_left "the clear record's numbers" 0 $numbers show clear
    for output in - x; do
        nothing_left "the page's line" 0 $page_text page clear $output
        nothing_left "the clear record" 0 $record page clear $output
        nothing_left "the clear record's numbers" 0 $numbers page clear $output
    done
    nothing_left "the key's digits" 0 "$(hex_of $key128)" open --key-hex hex128 sealed128 x
    nothing_left "a new key" 0 0102030405060708090a0b0c0d0e0f10 keygen x
    # a long note, since the beginning of memory that was given back is soon written over
    yes "$note_text" | head -c 16384 >long
    "$planbook" note --key key128 --counter $counter long long128
    for name in long long128; do
        nothing_left "the key's words" \
            0 "$(words_of 128)" note --key key128 --counter $counter $name
        nothing_left "the text of the note" \
            0 "$(hex_of "$note_text")" note --key key128 --counter $counter $name x
    done
    # whatever else was on the stack
    mark=a5a4a3a2a1a09f9e9d9c9b9a99989796
    when=scan,mark
    for verb in "show clear" "open --key key128 sealed128 x"; do
        nothing_left "a mark on the stack" 0 $mark $verb
    done
    # a call's stack is wiped at once, with what was left there before it: by reading the book, or
    # by asking for the memory of the output, which has 44 bytes for a book and 53 for the note
    when=early-scan,early-mark
    nothing_left "a mark on the stack, while the output is written," 0 $mark page clear x
    when=early-scan,malloc-mark:44
    for verb in "seal --key key128 clear x" "open --key key128 sealed128 x"; do
        nothing_left "a mark on the stack, while the output is written," 0 $mark $verb
    done
    when=early-scan,malloc-mark:53
    nothing_left "a mark on the stack, while the output is written," \
        0 $mark note --key key128 --counter $counter note x
    # the key is gone as soon as its words are there, which is before the output's memory is asked
    # for; the words of key128 begin with it
    for bits in 192 256; do
        eval "key=\$key$bits"
        when=malloc-scan:44
        for verb in "seal --key key$bits clear x" "open --key key$bits sealed$bits x" \
            "open --key-hex hex$bits sealed$bits x"; do
            nothing_left "the key, before a book is sealed or opened," 0 $key $verb
        done
        when=malloc-scan:53
        nothing_left "the key, before a note is sealed," \
            0 $key note --key key$bits --counter $counter note x
    done
    when=malloc-scan:44,early-mark
    nothing_left "a mark on the stack, before the book is sealed," 0 $mark seal --key key128 clear x
    # the words are gone as soon as they have been used
    when=early-scan
    for bits in 128 192 256; do
        eval "key=\$key$bits"
        for verb in "seal --key key$bits clear x" "seal --key key$bits plan.csv x" \
            "open --key key$bits sealed$bits x" "show --key key$bits sealed$bits x" \
            "note --key key$bits --counter $counter note x"; do
            nothing_left "the key, while the output is written," 0 $key $verb
            nothing_left "the key's words, while the output is written," 0 "$(words_of $bits)" $verb
        done
    done
    nothing_left "the text, while the sealed note is written," \
        0 "$(hex_of "$note_text")" note --key key128 --counter $counter long x
    nothing_left "the clear record, while the page is written," 0 $record page clear x
    when=scan
    # the same where the command ends early
    nothing_left "the key" 1 $key192 open --key key192 sealed128 x
    nothing_left "the key's words" 1 "$(words_of 192)" open --key key192 sealed128 x
    nothing_left "the key's words" 1 "$(words_of 128)" note --key key128 --counter 00 note x
    nothing_left "the key" 2 $key128 open --key key128 sealed128 missing/x
    nothing_left "the clear record" 2 $record open --key key128 sealed128 missing/x
    unhex 01000001 0000002900020000$start $record 000000290000000705000c0003000000 >damaged
    nothing_left "the clear record" 1 $record seal --key key128 damaged x
    nothing_left "the clear record" 1 $record page damaged x
    nothing_left "the clear record" 1 $record page --sheet 1 clear x
    nothing_left "the page's line" 2 $page_text page clear missing/x
    { cat plan.csv; echo 41,x,2,12,4; } >damaged.csv
    nothing_left "the plan's line" 2 $line_text seal --key key128 damaged.csv x
    nothing_left "the clear record's numbers" 2 $numbers check damaged.csv
    nothing_left "the key" 1 $key128 note --key key128 --counter $counter --way 4 note x
    nothing_left "the text of the note" \
        2 "$(hex_of "$note_text")" note --key key128 --counter $counter long128 missing/x
    echo >>long
    nothing_left "the text of the note" \
        1 "$(hex_of "$note_text")" note --key key128 --counter $counter long x
    # and where it ends while it has the key or the words
    when=scan,no-memory:160
    nothing_left "the key" 2 $key128 seal --key key128 clear x
    holds "there was no memory for the words" grep -qx "planbook: no memory for 160 bytes" err
    when=scan,no-memory:44
    nothing_left "the key" 2 $key128 seal --key key128 clear x
    nothing_left "the key's words" 2 "$(words_of 128)" seal --key key128 clear x
    holds "there was no memory for the book" grep -qx "planbook: no memory for 44 bytes" err
    when=scan
    rm -f long long128
}
