# shellcheck shell=sh disable=SC2086,SC2154
# (command lines are split into arguments; samples and functions are those of tests/cli/run)
#
# Part of tests/cli/run: what each verb does when all is well.

test_seal_and_open() {
    for bits in 128 192 256; do
        for way in 1 2 3; do
            expect 0 "" seal --key key$bits --way $way clear s
            expect 0 "" open --way=$way --key-hex hex$bits s c
            same s sealed$bits
            same c clear
            mode_is 600 c
            rm -f s c
        done
    done
    expect 0 "" seal --key key256 clear
    same out sealed256
    cp clear in
    expect 0 "" seal --key=key256 - -
    same out sealed256
    cp sealed128 in
    expect 0 "" open --key key128 - c
    same c clear
    cp key128 in
    expect 0 "" open --force --key - sealed128 c
    same c clear
    tr a-f A-F <hex192 | tr -d '\n' >upper
    chmod 600 upper
    expect 0 "" open --key-hex upper -- sealed192
    same out clear
    (umask 022 && "$planbook" seal --key key128 clear s)
    mode_is 644 s
    (umask 777 && "$planbook" open --key key128 s d)
    mode_is 600 d
    rm -f s c d
    unhex 01000000 >in
    expect 0 "" seal --key key128
    unhex 02000000 >none
    same out none
}

# The common path: a plan becomes a sealed book and a plan again, and no clear book is ever on disk.
test_one_step() {
    expect 0 "" seal --key key192 plan.csv s
    expect 0 "" open --key key192 s back.csv
    same back.csv plan.csv
    mode_is 600 back.csv
    expect 0 "" open --key key192 s back.CSV
    same back.CSV plan.csv
    expect 0 "" open --csv --key key192 s
    same out plan.csv
    expect 0 "" open --key key192 s c
    expect 0 "" unpack c
    same out plan.csv
    cp plan.csv in
    expect 0 "" seal --key key192 - t
    expect 0 "" open --csv --key key192 t
    same out plan.csv
    holds "each sealing draws new start blocks" \
        [ "$("$planbook" show s | sed -n 4p)" != "$("$planbook" show t | sed -n 4p)" ]
    expect 0 "" seal --key key192 --trials "$here/examples/trials.csv" "$here/examples/plan.csv" u
    expect 0 "" open --key key192 --trials t.csv u back.csv --force
    same back.csv "$here/examples/plan.csv"
    cut -d , -f 1,3 t.csv >got
    same got "$here/examples/trials.csv"
    mkdir "a folder"
    cp plan.csv "a folder/the plan.csv"
    (cd "a folder" && "$planbook" seal --key ../key192 "the plan.csv" "../a folder/the book" &&
        "$planbook" open --csv --key ../key192 "the book") >out 2>err
    judge "names with spaces, from another folder" 0 "" $?
    same out plan.csv
    rm -rf s t u c t.csv back.csv back.CSV "a folder"
}

test_show_and_labels() {
    cat >table <<'END'
clear plan book: sheets 1, records 1, bytes 44

     TRIAL RECORDS REPLICATES            START BLOCK
        41       1          4 (default)  0001022a040506000a09060b0f0d0e0f

     TRIAL PLACE      ENTRY REPLICATE   ROW COLUMN
        41     0          7         2    12      3
END
    sed -e s/clear/sealed/ -e 4q table >head.txt
    expect 0 "" show clear
    same out table
    expect 0 "" show clear shown
    same shown table
    mode_is 600 shown
    expect 0 "" show sealed192
    same out head.txt
    # with the key, what is shown is called opened
    sed '1s/^clear plan book:/clear plan book, opened from a sealed one:/' table >opened
    for bits in 128 192 256; do
        expect 0 "" show --key key$bits sealed$bits
        same out opened
        expect 0 "" show --force --key-hex hex$bits sealed$bits shown
        same shown opened
    done
    echo "41 0 $cipher256" >label
    cp sealed256 in
    expect 0 "" labels
    same out label
    # Two sheets: trial 41 with two records, trial 4294967295 with one. Sealed records may be any
    # bytes.
    unhex 02000002 0000002900020000$start ffffffff00010000$cipher128 $cipher128 $cipher192 \
        $cipher256 >two
    printf '41 0 %s\n41 1 %s\n4294967295 0 %s\n' $cipher128 $cipher192 $cipher256 >label
    expect 0 "" labels two labels
    same labels label
    echo 'sealed plan book: sheets 0, records 0, bytes 4' >head.txt
    unhex 02000000 >none
    expect 0 "" show none
    same out head.txt
    expect 0 "" labels none
    same out empty
    rm -f shown labels
}

test_json() {
    cat >wanted <<END
{"kind": "clear", "opened": false, "bytes": 44,
 "sheets": [
  {"trial": 41, "count": 1, "replicates": 4, "replicates_by_default": true, "start_block": "$start"}
 ],
 "records": [
  {"trial": 41, "place": 0, "entry": 7, "replicate": 2, "row": 12, "column": 3, "reserve": false}
 ]
}
END
    expect 0 "" show --json clear
    same out wanted
    sed '1s/"opened": false/"opened": true/' wanted >opened
    for bits in 128 192 256; do
        expect 0 "" show --json --key key$bits sealed$bits
        same out opened
    done
    { sed -n -e '1s/clear/sealed/' -e '1,3p' wanted; printf ' ]\n}\n'; } >head.txt
    expect 0 "" show --json sealed128
    same out head.txt
    printf '[\n {"trial": 41, "place": 0, "label": "%s"}\n]\n' $cipher128 >wanted
    expect 0 "" labels --json sealed128 x
    same x wanted
    printf '[\n]\n' >wanted
    unhex 02000000 >none
    expect 0 "" labels --json none
    same out wanted
    rm -f x
    if command -v jq >/dev/null; then
        "$planbook" show --json --key key128 sealed128 | jq -r \
            '.records[] | [.trial, .entry, .replicate, .row, .column] | @csv' >out
        tail -n +2 plan.csv >lines
        same out lines
    else
        skip "another program reads the JSON: no jq"
    fi
}

test_find() {
    unhex 01000002 0000002900020000$start ffffffff00010000$cipher128 $record \
        000000290000000803000103e7000000 \
        ffffffff000000090400020004000000 >in
    expect 0 "" seal --key key128 - s
    printf '     TRIAL PLACE      ENTRY REPLICATE   ROW COLUMN\n' >head.txt
    { cat head.txt; echo '        41     0          7         2    12      3'; } >wanted
    expect 0 "" find --key key128 s $cipher128
    same out wanted
    for bits in 128 192 256; do
        eval "expect 0 '' find --key key$bits sealed$bits \$cipher$bits"
        same out wanted
        expect 0 "" find --key-hex hex$bits sealed$bits 41 0
        same out wanted
    done
    { cat head.txt; echo '        41     1          8         3     1    999'; } >wanted
    expect 0 "" find --key key128 s "$("$planbook" labels s | sed -n '2s/.* //p' | tr a-f A-F)"
    same out wanted
    expect 0 "" find --key-hex hex128 s 41 1
    same out wanted
    {
        printf '{"trial": 4294967295, "place": 0, "entry": 9, "replicate": 4, '
        echo '"row": 2, "column": 4, "reserve": false}'
    } >wanted
    expect 0 "" find --json --key key128 s 4294967295 0
    same out wanted
    cp s in
    expect 0 "" find --json --key key128 - "$("$planbook" labels s | sed -n '3s/.* //p')"
    same out wanted
    # a label as a scanner gives it, or as it is pasted
    { cat head.txt; echo '        41     0          7         2    12      3'; } >wanted
    for label in " $cipher128" "$cipher128  " "$(printf '\t%s\r' $cipher128)" \
        "$(printf '%s\r\n.' $cipher128 | sed '$d')
"; do
        expect 0 "" find --key key128 s "$label"
        same out wanted
    done
    expect_exactly 1 "planbook: s has no record with this label" find --key key128 s $cipher192
    expect_exactly 1 "planbook: s has no trial 42" find --key key128 s 42 0
    expect_exactly 1 "planbook: trial 41 of s has the places 0 to 1, and not 2" \
        find --key key128 s 41 2
    bad="planbook: the label is not 32 hexadecimal digits"
    expect_exactly 2 "$bad: there are 2" find --key key128 s 41
    expect_exactly 2 "$bad: there are 33" find --key key128 s ${cipher128}0
    expect_exactly 2 "$bad: there are 0" find --key key128 s " "
    expect_exactly 2 "$bad: byte 17 is none" find --key key128 s "de2bf2fd9b74aacd f1298555459494fd"
    expect 2 "PLACE takes a number: x" find --key key128 s 41 x
    expect 2 "find needs more operands: SEALED LABEL | SEALED TRIAL PLACE" find --key key128 s
    expect 2 "9 is one operand too many" find --key key128 s 41 0 9
    expect 1 "[check 6]" find --key key128 clear $cipher128
    expect 1 "s does not open under this key" find --key key192 s $cipher128
    same out empty
    rm -f s
}

test_keygen() {
    expect 0 "" keygen k
    mode_is 600 k
    holds "a key of 16 bytes" [ "$(wc -c <k)" -eq 16 ]
    for bits in 128 192 256; do
        rm -f k
        (umask 0 && "$planbook" keygen --bits $bits k)
        mode_is 600 k
        holds "a key of $bits bits" [ $((8 * $(wc -c <k))) -eq $bits ]
        expect 0 "" seal --key k clear s
        expect 0 "" open --key k s c
        same c clear
        rm -f s c
    done
    cp k kept
    expect_exactly 2 "planbook: k exists, and no key is ever replaced: name another file" keygen k
    same k kept
    expect 2 "keygen has no option --force" keygen --force k
    same k kept
    expect_nothing x 2 "--bits 100: a key has 128, 192 or 256 bits" keygen --bits 100 x
    expect_nothing x 2 "--bits takes a number: long" keygen --bits=long x
    expect 2 "keygen needs more operands: FILE" keygen
    expect 0 "" keygen --bits 256 -
    holds "a key goes to standard output" [ "$(wc -c <out)" -eq 32 ]
    # the key is what the system gave, piece by piece; one that is all digits is drawn again
    unhex 0102030405060708090a0b0c0d0e0f10 >counted
    for fault in count digits; do
        rm -f k
        with_fault $fault keygen k
        judge "keygen, random bytes: $fault" 0 "" $?
        same k counted
    done
    rm -f k
    with_fault no-random keygen k
    judge "no random bytes" 2 "the system gives no random bytes: Function not implemented" $?
    holds "no key without random bytes" [ ! -e k ]
    rm -f k
}

test_check() {
    expect 0 "" check plan.csv
    echo "trials 1, plots 1, bytes of the book 44" >wanted
    same out wanted
    cp "$here/examples/plan.csv" in
    expect 0 "" check --trials "$here/examples/trials.csv"
    echo "trials 4, plots 38, in reserve 1, bytes of the book 708" >wanted
    same out wanted
    : >before; : >after
    find . | sort >before
    expect 2 "x is one operand too many" check plan.csv x
    find . | sort >after
    same before after
}

test_pack_and_unpack() {
    expect 0 "" pack --trials trials.csv plan.csv book
    same book clear
    mode_is 600 book
    expect 0 "" unpack --trials s.csv book p.csv
    same p.csv plan.csv
    same s.csv trials.csv
    mode_is 600 p.csv
    mode_is 600 s.csv
    expect 0 "" unpack --trials - book p2.csv
    same out trials.csv
    same p2.csv plan.csv
    expect 0 "" unpack book
    same out plan.csv
    cp trials.csv in
    expect 0 "" pack --force --trials - plan.csv book
    same book clear
    rm -f book p.csv p2.csv s.csv
    # fresh start blocks are what the system gave, trial by trial
    printf 'trial,entry,replicate,row,column\n43,1,1,1,1\n41,7,2,12,3\n' >two.csv
    printf '%s\n' trial,start_block,replicates 41,0102030405060708090a0b0c0d0e0f10,0 \
        43,1112131415161718191a1b1c1d1e1f20,0 >wanted
    with_fault count pack two.csv book
    judge "pack draws start blocks" 0 "" $?
    expect 0 "" unpack --trials s.csv book p.csv
    same s.csv wanted
    with_fault no-random pack two.csv x
    judge "pack without random bytes" 2 "the system gives no random bytes" $?
    holds "no book without random bytes" [ ! -e x ]
    expect 0 "" pack plan.csv a
    expect 0 "" pack plan.csv b
    holds "two books of one plan have other start blocks" \
        [ "$("$planbook" show a | sed -n 4p)" != "$("$planbook" show b | sed -n 4p)" ]
    rm -f a b book p.csv s.csv
}

# All that is made of a random book is what tests/cli/random_book.c has made of it.
random_book() {
    "$planbook" unpack --trials s.csv book p.csv && cmp p.csv plan.csv && cmp s.csv trials.csv &&
        "$planbook" pack --trials s.csv p.csv again 2>/dev/null && cmp again book &&
        "$planbook" pack --trials mixed-trials.csv mixed.csv mixed 2>/dev/null && cmp mixed book &&
        for way in 1 2 3; do
            "$planbook" seal --key key --way $way --force book s && cmp s sealed &&
                "$planbook" open --key key --way $way --force sealed opened && cmp opened book ||
                    return 1
        done &&
        "$planbook" show book >out && cmp out show.txt &&
        "$planbook" show --json book >out && cmp out show.json &&
        "$planbook" show sealed >out && cmp out head.txt &&
        "$planbook" show --json sealed >out && cmp out head.json &&
        "$planbook" show --key key sealed >out && sed '1s/, opened from a sealed one:/:/' out |
            cmp - show.txt &&
        "$planbook" labels sealed >out && cmp out labels.txt &&
        "$planbook" labels --json sealed >out && cmp out labels.json &&
        "$planbook" open --csv --key key sealed >out && cmp out plan.csv &&
        "$planbook" open --key key --trials t.csv sealed q.csv &&
        cmp q.csv plan.csv && cmp t.csv trials.csv || return 1
    while read -r label trial place rest; do
        for asked in "$label" "$trial $place"; do
            found=$("$planbook" find --key key sealed $asked | tail -n 1 | tr -s ' ')
            [ "${found# }" = "$trial $place $rest" ] || return 1
        done
    done <find.txt
}

test_random_books() {
    for seed in $(seq 1 "${RANDOM_BOOKS:-25}"); do
        rm -rf random && mkdir random && cd random || exit 2
        "$built/random_book" "$seed"
        chmod 600 key
        random_book >../err 2>&1
        status=$?
        cd "$work" || exit 2
        holds "random book of seed $seed: $(cat err)" [ $status -eq 0 ]
    done
}

# The sanitized command drops what it leaks, so leaks are looked for here, on the long ways through
# the command.
test_valgrind() {
    if ! command -v valgrind >/dev/null; then
        skip "the command under valgrind: not installed"
        return
    fi
    for line in "open --key-hex hex192 sealed192" "pack --trials trials.csv plan.csv"; do
        valgrind -q --leak-check=full --error-exitcode=9 "$plain" $line >out 2>err
        judge "valgrind planbook $line" 0 "" $?
        same out clear
    done
    valgrind -q --leak-check=full --error-exitcode=9 "$plain" seal --key key128 plan.csv x 2>err
    judge "valgrind planbook seal" 0 "" $?
    valgrind -q --leak-check=full --error-exitcode=9 "$plain" find --json --key key128 sealed128 \
        41 0 >out 2>err
    judge "valgrind planbook find" 0 "" $?
    valgrind -q --leak-check=full --error-exitcode=9 "$plain" note --key key128 --counter $counter \
        note128 >out 2>err
    judge "valgrind planbook note" 0 "" $?
    same out note
    valgrind -q --leak-check=full --error-exitcode=9 "$plain" page clear >out 2>err
    judge "valgrind planbook page" 0 "" $?
    holds "the page, under valgrind" grep -qx '        41          7 2  12   3' out
    rm -f x
}
