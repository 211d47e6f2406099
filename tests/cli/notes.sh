# shellcheck shell=sh disable=SC2086,SC2154
# (command lines are split into arguments; samples and functions are those of tests/cli/run)
#
# Part of tests/cli/run: notes, and the counter blocks that they are sealed from.

# note_gives KEY COUNTER INPUT WANTED: sealing and opening are the same.
note_gives() {
    expect 0 "" note --key "$1" --counter "$2" "$3" x
    same x "$4"
    rm -f x
}

differ() { ! cmp -s "$1" "$2"; }

test_notes() {
    # each way opens what each way has sealed
    for bits in 128 192 256; do
        for way in 1 2 3; do
            expect 0 "" note --key key$bits --counter $counter --way $way note s
            same s note$bits
            for other in 1 2 3; do
                expect 0 "" note --way=$other --counter=$counter --key-hex hex$bits s c
                same c note
                rm -f c
            done
            rm -f s
        done
    done
    # standard input and output, a key from standard input, pipes
    cp note in
    expect 0 "" note --key key256 --counter $counter
    same out note256
    cp note256 in
    expect 0 "" note --key=key256 --counter $counter - -
    same out note
    expect 0 "" note --key key256 --counter $counter note -
    same out note256
    cp note in
    expect 0 "" note --key key256 --counter $counter - x
    same x note256
    cp key192 in
    expect 0 "" note --force --key - --counter $counter note192 x
    same x note
    rm -f x
    { head -c 20 note; sleep 0.2; tail -c +21 note; } |
        "$planbook" note --key key128 --counter $counter 2>err |
        "$planbook" note --key key128 --counter $counter >out 2>>err
    judge "a note in two pieces, sealed and opened in a pipe" 0 "" $?
    same out note
    # names with spaces, from another folder
    mkdir "a folder"
    cp note "a folder/the note"
    (cd "a folder" && "$planbook" note --key ../key128 --counter $counter "the note" \
        "../a folder/the sealed note") 2>err
    judge "a note whose name has a space, from another folder" 0 "" $?
    same "a folder/the sealed note" note128
    rm -rf "a folder"
}

# The last four bytes count, and a wrong key or counter block is not noticed.
test_counters() {
    # a note of zeros becomes the encrypted counter blocks: the ciphertext of the CLEFIA
    # specification is the first from $counter, and the second from the one before
    for bits in 128 192 256; do
        eval "unhex \$cipher$bits >wanted"
        head -c 16 /dev/zero >zeros
        note_gives key$bits $counter zeros wanted
        head -c 32 /dev/zero >zeros
        expect 0 "" note --key key$bits --counter 000102030405060708090a0b0c0d0e0e zeros x
        tail -c 16 x >second
        same second wanted
        rm -f x
    done
    # after ffffffff comes 00000000, and the first twelve bytes stay; worked out as the samples of
    # tests/cli/run were
    unhex 0121ea06b5029421305586a74c2100a41c041f961956e9fddeadb994cabf506d \
        7124f05d5e8f57fc19356e834a5fe5d6e69dc5365a >wanted
    note_gives key192 000102030405060708090a0bfffffffe note wanted
    tail -c 21 wanted >rest
    tail -c 21 note >rest_of_note
    note_gives key192 000102030405060708090a0b00000000 rest rest_of_note
    # capitals, and digits from a file, whose line feed the shell drops
    note_gives key128 000102030405060708090A0B0C0D0E0F note note128
    echo $counter >kept
    note_gives key128 "$(cat kept)" note note128
    # the wrong key gives the exclusive or of both ciphertexts, and a wrong counter block other
    # bytes, both without a message
    unhex $cipher128 >sealed_zeros
    unhex 3c63dd990476270971f424d1b8751550 >wanted
    note_gives key192 $counter sealed_zeros wanted
    expect 0 "" note --key key128 --counter 010102030405060708090a0b0c0d0e0f note128
    holds "another counter block opens to another text" differ out note
    holds "of the same length" [ "$(wc -c <out)" -eq 53 ]
}

# bad_counter STATUS MESSAGE COUNTER
bad_counter() {
    expect_exactly "$1" "planbook: $2" note --key key128 --counter "$3" note x
    holds "nothing is made from the counter block $3" [ ! -e x ]
}

test_bad_counters() {
    digits="--counter takes 32 hexadecimal digits and nothing else"
    bad_counter 2 "$digits: byte 2 is none" 0x$counter
    bad_counter 2 "$digits: byte 9 is none" "00010203 04050607 08090a0b 0c0d0e0f"
    bad_counter 2 "$digits: byte 3 is none" 00:01:02:03:04:05:06:07:08:09:0a:0b:0c:0d:0e:0f
    bad_counter 2 "$digits: byte 32 is none" ${counter%?}g
    bad_counter 2 "$digits: byte 31 is none" ${counter%??}g0
    for bad in " $counter" x${counter#?} -$counter - note; do
        bad_counter 2 "$digits: byte 1 is none" "$bad"
    done
    for bad in "$counter " "$(printf '%s\r' $counter)" "$counter
"; do
        bad_counter 2 "$digits: byte 33 is none" "$bad"
    done
    for bad in 0 ${counter}0 ${counter%?}; do
        bad_counter 2 "$digits: there are ${#bad}" "$bad"
    done
    # another length is the library's to refuse
    length="bytes long, not 16, which are 32 hexadecimal digits [check 3]"
    for bad in "" 00 ${counter%??} ${counter}00 $counter$counter; do
        bad_counter 1 "the counter block is $((${#bad} / 2)) $length" "$bad"
    done
    bad_counter 1 \
        "the counter block is 1,000 bytes long, not 16, which are 32 hexadecimal digits [check 3]" \
        "$(printf %02000d 0)"
    # what is wrong with the arguments is said before anything is read
    cp note in
    { "$planbook" note --key key128 --counter 0x00 - x 2>err; echo $? >status; cat >rest; } <in
    judge "a bad counter block, and standard input" 2 "$digits: byte 2 is none" "$(cat status)"
    same rest note
}

test_note_lengths() {
    # a cut text gives a cut note
    for length in 0 1 15 16 17 31 32 33 48 52; do
        head -c $length note >begin
        head -c $length note128 >wanted
        note_gives key128 $counter begin wanted
        note_gives key128 $counter wanted begin
    done
    # the longest note, by digests of notes that were worked out in the same way
    head -c 16384 /dev/zero >long
    for digest in 128:0512497b0a4e30b564127b14c2ae0aaca8fc8891c5adaf1806193cb5d3721f3e \
        192:918e59064c75dbe1531e5112396fe562754d4561e3c646c3ea62662ab02ac61b \
        256:ff22741e576c8166c8660f525d8f4be06b250c5b406c24034b6ffa4393862d36; do
        bits=${digest%:*}
        expect 0 "" note --key key$bits --counter $counter long s
        holds "the longest note under key$bits" [ "$(sha256sum <s)" = "${digest#*:}  -" ]
        note_gives key$bits $counter s long
        rm -f s
    done
    # one byte more, and no end
    head -c 16385 /dev/zero >long
    for name in long /dev/zero; do
        expect_exactly 1 \
            "planbook: $name is longer than a note can be, which is 16,384 bytes [check 12]" \
            note --key key128 --counter $counter $name x
        holds "nothing is made of $name" [ ! -e x ]
        expect_nothing x 1 "$name is longer than a note can be" \
            note --key key128 --counter $counter $name
    done
    head -c 20000 /dev/zero >long
    { "$planbook" note --key key128 --counter $counter - x 2>err; echo $? >status; cat >rest; } \
        <long
    judge "a note of 20,000 bytes" \
        1 "standard input is longer than a note can be, which is 16,384 bytes [check 12]" \
        "$(cat status)"
    holds "nothing is made of it" [ ! -e x ]
    holds "it is read up to the first byte too many" [ "$(wc -c <rest)" -eq 3615 ]
    # of several checks that fail the first is reported
    head -c 15 /dev/zero >short
    chmod 600 short
    expect_nothing x 1 "the key in short is 15 bytes long, not 16, 24 or 32 [check 1]" \
        note --key short --counter 00 --way 4 long x
    expect_nothing x 1 "--way 4: the ways are 1, 2 and 3 [check 2]" \
        note --key key128 --counter 00 --way 4 long x
    expect_nothing x 1 "the counter block is 1 bytes long, not 16" \
        note --key key128 --counter 00 long x
    rm -f long short
}

test_note_files() {
    crypt="note --key key128 --counter $counter"
    # an existing file is kept without --force, and with it too where the note is refused
    cp precious old
    expect_exactly 2 "planbook: old exists: name another output, or replace it with --force" \
        $crypt note old
    expect 1 "[check 3]" note --force --key key128 --counter 00 note old
    expect 1 "[check 12]" $crypt --force /dev/zero old
    same old precious
    expect 0 "" $crypt --force note old
    same old note128
    # whether sealed or opened, the output is for its owner alone
    (umask 0 && "$planbook" $crypt note s && "$planbook" $crypt s c) 2>err
    judge "a note sealed and opened" 0 "" $?
    mode_is 600 s
    mode_is 600 c
    same c note
    chmod 644 old
    expect_exactly 0 "planbook: warning: old keeps its mode 644, so others may read it" \
        $crypt --force note128 old
    mode_is 644 old
    same old note
    rm -f old s c
    # inputs that cannot be read
    expect_nothing x 2 "cannot open missing: No such file" $crypt missing x
    expect_nothing x 2 "cannot open : No such file" $crypt "" x
    expect_nothing x 2 "cannot read folder: Is a directory" $crypt folder x
    expect_nothing x 2 "cannot open missing: No such file" \
        note --key missing --counter $counter note x
    with_fault full $crypt note x
    judge "disk full in the middle of a note" 2 "cannot write x: No space left on device" $?
    holds "no part of a note" [ ! -e x ]
}

# The lines of the manual page do what it says, and draw another counter block each time.
test_note_example() {
    mkdir example
    cd example || exit 2
    ln -s "$planbook" planbook
    "$planbook" keygen notes.key
    cp ../note note.txt
    sed -n '/^counter=/,/^\.Ed/p' "$here/cli/planbook.1" | sed -e '/^\.Ed/d' -e 's/\\e/\\/g' >lines
    holds "the manual page shows how a note is sealed and opened" \
        [ "$(grep -c '^planbook note ' lines)" -eq 2 ]
    for turn in first second; do
        PATH=$PWD:$PATH sh -e lines 2>../err
        judge "the example of the manual page, $turn time" 0 "" $?
        same opened.txt note.txt
        holds "the example seals" differ note.sealed note.txt
        holds "the example draws 24 digits" grep -qxE '[0-9a-f]{24}0{8}' note.counter
        mv note.counter $turn
        rm -f note.sealed opened.txt
    done
    holds "the example draws others each time" differ first second
    cd "$work" || exit 2
    rm -rf example
}
