# shellcheck shell=sh disable=SC2086,SC2154
# (command lines are split into arguments; samples and functions are those of tests/cli/run)
#
# Part of tests/cli/run: planting pages.

heading='     TRIAL      ENTRY R ROW COL'

# A book of three sheets, with the least and the greatest numbers and a plot in reserve; its pages;
# and the page of the sample book.
page_samples() {
    unhex 01000003 0000000100010000$start 0000002900020000$start ffffffff00020800$start \
        00000001000000010100010001000000 \
        $record 00000029ffffffff0400000000000000 \
        ffffffffffffffff0803e703e7000000 ffffffff3b9aca00010064000a000000 >three
    printf '%s\n' "$heading" '         1          1 1   1   1' >three0
    printf '%s\n' "$heading" '        41          7 2  12   3' '        41 4294967295 4   0   0' \
        >three1
    printf '%s\n' "$heading" '4294967295 4294967295 8 999 999' '4294967295 1000000000 1 100  10' \
        >three2
    printf '%s\n' "$heading" '        41          7 2  12   3' >page
}

# pages_of PLAN: the pages that the sheets of a plan must have, from its lines alone, as page.0,
# page.1 ..; prints how many.
pages_of() {
    awk -F, -v heading="$heading" 'NR == 1 { next }
        $1 != trial { close(file); trial = $1; file = "page." n++; print heading >file }
        { printf "%10s %10s %s %3s %3s\n", $1, $2, $3, $4, $5 >file }
        END { print n + 0 }' "$1"
}

# pages_are WHAT PLAN BOOK: each sheet of the book has its page, and there are no more.
pages_are() {
    rm -f page.*
    sheets=$(pages_of "$2")
    sheet=0
    while [ $sheet -lt $sheets ] &&
        "$planbook" page --sheet $sheet "$3" 2>err | cmp -s - page.$sheet; do
        sheet=$((sheet + 1))
    done
    holds "$1: sheet $sheet of $sheets: $(cat err)" [ $sheet -eq $sheets ]
    expect_nothing x 1 "[check 13]" page --sheet $sheets "$3" x
}

test_pages() {
    page_samples
    expect 0 "" page clear
    same out page
    holds "two lines of 32 bytes" [ "$(wc -c <out)" -eq 64 ]
    for sheet in 0 1 2; do
        expect 0 "" page --sheet $sheet three
        same out three$sheet
        expect 0 "" page --sheet=00$sheet three x
        same x three$sheet
        rm -f x
    done
    # without --sheet, the first; names, standard input and output
    expect 0 "" page three
    same out three0
    cp three in
    expect 0 "" page
    same out three0
    cp three in
    expect 0 "" page --sheet 2 - -
    same out three2
    cp three in
    expect 0 "" page - x --sheet 1
    same x three1
    rm -f x
    expect 0 "" page --sheet 1 three -
    same out three1
    # no clear book on the disk: from a sealed book, and from a plan
    "$planbook" open --key key128 sealed128 2>err | "$planbook" page >out 2>>err
    judge "the page of a sealed book, in a pipe" 0 "" $?
    same out page
    printf '%s\n' $header 58,1,1,1,1 $good >two.csv
    "$planbook" pack two.csv 2>err | "$planbook" page >out 2>>err
    judge "the page of a plan, in a pipe" 0 "" $?
    same out page
    { head -c 20 three; sleep 0.2; tail -c +21 three; } | "$planbook" page --sheet 2 >out 2>err
    judge "the page of a book in two pieces" 0 "" $?
    same out three2
    # names with spaces, from another folder
    mkdir "a folder"
    cp three "a folder/the book"
    (cd "a folder" && "$planbook" page "the book" "../a folder/the page") 2>err
    judge "a page whose name has a space, from another folder" 0 "" $?
    same "a folder/the page" three0
    rm -rf "a folder"
    test_largest_pages
}

# The last of 64 sheets, and the longest page: 1,024 records and a heading.
test_largest_pages() {
    { echo $header; seq -f '%.0f,7,1,1,1' 1 64; } >many.csv
    expect 0 "" pack many.csv many
    printf '%s\n' "$heading" "        64          7 1   1   1" >wanted
    expect 0 "" page --sheet 63 many
    same out wanted
    { echo $header; echo 1,7,1,1,1; plots 41 1024; } >many.csv
    expect 0 "" pack --force many.csv many
    pages_are "the longest page" many.csv many
    holds "it has 32,800 bytes" [ "$(wc -c <page.1)" -eq 32800 ]
    rm -f many many.csv page.*
}

# no_sheet SENTENCE SHEET BOOK: refused under check 13, with a file to be made and without one.
no_sheet() {
    expect_exactly 1 "planbook: $3 has $1 [check 13]" page --sheet "$2" "$3" x
    holds "no page of sheet $2" [ ! -e x ]
    expect_nothing x 1 "[check 13]" page --sheet "$2" "$3"
}

test_sheets() {
    page_samples
    # the next ones, and numbers that would be a sheet's if their highest bits were lost
    for sheet in 3 4 63 64 65 255 256 65536 2147483648 4294967296 4294967297 9223372036854775808 \
        18446744073709551615; do
        no_sheet "3 sheets, counted from 0: there is no sheet $sheet" $sheet three
    done
    for sheet in 1 2 18446744073709551615; do
        no_sheet "1 sheet, counted from 0: there is no sheet $sheet" $sheet clear
    done
    no_sheet "3 sheets, counted from 0: there is no sheet 7" 007 three
    cp three in
    expect_exactly 1 \
        "planbook: standard input has 3 sheets, counted from 0: there is no sheet 3 [check 13]" \
        page --sheet 3
    same out empty
    # where the number is a trial's, its sheet is said; 4294967337 is 2^32 + 41
    no_sheet "3 sheets, counted from 0: there is no sheet 41; trial 41 is sheet 1" 41 three
    no_sheet "3 sheets, counted from 0: there is no sheet 4294967295; trial 4294967295 is sheet 2" \
        4294967295 three
    no_sheet "1 sheet, counted from 0: there is no sheet 41; trial 41 is sheet 0" 41 clear
    no_sheet "3 sheets, counted from 0: there is no sheet 4294967337" 4294967337 three
    # what is a sheet is never taken for a trial
    expect 0 "" page --sheet 1 three
    same out three1
    # a book of no sheets has no page, not even by default
    unhex 01000000 >none
    for sheet in 0 1 41 18446744073709551615; do
        no_sheet "no sheets" $sheet none
    done
    expect_exactly 1 "planbook: none has no sheets [check 13]" page none x
    holds "no page of no sheets" [ ! -e x ]
    cp none in
    expect_nothing x 1 "standard input has no sheets [check 13]" page
    test_bad_sheets
}

test_bad_sheets() {
    for sheet in -1 -0 +1 "" " " " 1" "1 " 0x1 1e0 1.0 1,2 one; do
        expect_exactly 2 "planbook: --sheet takes a number: $sheet" page --sheet "$sheet" three x
        holds "nothing is made of --sheet $sheet" [ ! -e x ]
    done
    for sheet in 18446744073709551616 99999999999999999999999999 "1
"; do
        expect_exactly 2 "planbook: --sheet takes a number: $not_shown" \
            page --sheet "$sheet" three x
        holds "nothing is made of --sheet $sheet" [ ! -e x ]
    done
    # what is wrong with the arguments is said before anything is read
    { "$planbook" page --sheet one - x 2>err; echo $? >status; cat >rest; } <three
    judge "a bad sheet, and standard input" 2 "--sheet takes a number: one" "$(cat status)"
    same rest three
}

# Books that are refused, whatever the sheet; bad_clear has each sentence, bad_plot those of plots.
test_page_refusals() {
    page_samples
    for sheet in 0 7; do
        page="page --sheet $sheet"
        needs="a page needs a clear book"
        expect_exactly 1 "planbook: sealed128 is sealed, and $needs: open it first [check 6]" \
            $page sealed128 x
        for name in plan.csv note; do
            said="planbook: $name is text, and $needs: planbook pack makes one of a plan [check 6]"
            expect_exactly 1 "$said" $page $name x
        done
        printf '\002\001\000\000' >odd
        expect_exactly 1 \
            "planbook: odd is no clear plan book: it does not begin with 01 00 [check 6]" \
            $page odd x
        expect_exactly 1 "planbook: empty has 0 bytes, and a plan book has at least 4 [check 5]" \
            $page empty x
        # cut in the head, the contents and the records
        cut_off="its end is missing"
        for cut in "3:has 3 bytes, and a plan book has at least 4 [check 5]" \
            "4:has 4 bytes, but the contents of its 3 trials need 76: $cut_off [check 8]" \
            "75:has 75 bytes, but the contents of its 3 trials need 76: $cut_off [check 8]" \
            "76:has 76 bytes, but its contents say 156: its end is missing [check 10]" \
            "155:has 155 bytes, but its contents say 156: its end is missing [check 10]"; do
            head -c ${cut%%:*} three >in
            expect_exactly 1 "planbook: standard input ${cut#*:}" $page - x
        done
        # a record of another sheet than the one asked for: the last byte of the book
        { head -c 155 three; printf '\001'; } >damaged
        said="planbook: damaged, trial 4294967295, place 1: the last three bytes of the record"
        expect_exactly 1 "$said are not zero [check 11]" $page damaged x
        holds "no page of a refused book" [ ! -e x ]
    done
    # opened under a wrong key: the pipe is empty
    "$planbook" open --key key192 sealed128 2>/dev/null | "$planbook" page >out 2>err
    judge "the page of a book that does not open" \
        1 "standard input has 0 bytes, and a plan book has at least 4 [check 5]" $?
    same out empty
}

test_page_files() {
    page_samples
    # an existing file is kept without --force, and with it too where the page is refused
    cp precious old
    expect_exactly 2 "planbook: old exists: name another output, or replace it with --force" \
        page three old
    expect 1 "[check 13]" page --force --sheet 3 three old
    expect 1 "[check 6]" page --force sealed128 old
    same old precious
    expect 0 "" page --force --sheet 1 three old
    same old three1
    # a page is for its owner alone, as the clear book is
    (umask 0 && "$planbook" page three new) 2>err
    judge "a page where everybody may read new files" 0 "" $?
    mode_is 600 new
    same new three0
    chmod 644 old
    expect_exactly 0 "planbook: warning: old keeps its mode 644, so others may read it" \
        page --force three old
    mode_is 644 old
    same old three0
    # an output that is the input, whatever its name
    ln -s three link
    cp three kept
    for name in three ./three link; do
        expect 2 "$name is an input as well" page --force three $name
    done
    # shellcheck disable=SC2094
    "$planbook" page three >>three 2>err
    judge "the page goes to the book itself" 2 "standard output is an input as well" $?
    same three kept
    rm -f old new link kept
    # inputs that cannot be read, outputs that cannot be made
    expect_nothing x 2 "cannot open missing: No such file" page missing x
    expect_nothing x 2 "cannot open : No such file" page "" x
    expect_nothing x 2 "cannot read folder: Is a directory" page folder x
    expect_nothing x 2 "cannot make missing/x: No such file" page three missing/x
    expect 2 "folder exists and is not a regular file" page --force three folder
    "$planbook" page - x <&- 2>err
    judge "a page, standard input closed" 2 "cannot read standard input" $?
    with_fault full page three x
    judge "disk full in the middle of a page" 2 "cannot write x: No space left on device" $?
    holds "no part of a page" [ ! -e x ]
}

# The plans of random books are made by tests/cli/random_book.c, the others by commands of past
# seasons.
test_pages_of_plans() {
    rm -rf random && mkdir random || exit 2
    for seed in $(seq 1 "${RANDOM_BOOKS:-25}"); do
        (cd random && "$built/random_book" "$seed")
        pages_are "pages of the random book of seed $seed" random/plan.csv random/book
    done
    rm -rf random
    for season in 0.2.0 1.1.0; do
        pages_are "pages of a book of version $season" "$here/tests/past/$season/plan.csv" \
            "$here/tests/past/$season/clear.book"
    done
    rm -f page.*
}

# The page that the manual page shows, and its lines that make pages.
test_page_example() {
    mkdir example
    cd example || exit 2
    ln -s "$planbook" planbook
    printf '%s\n' $header $good 41,9,1,0,0 58,1,1,1,1 >plan.csv
    "$planbook" keygen season.key
    "$planbook" seal --key season.key plan.csv plan.sealed
    "$planbook" pack plan.csv plan.book
    pages_of plan.csv >/dev/null
    sed -n "/^$heading/,/^\.Ed/p" "$here/cli/planbook.1" | sed '/^\.Ed/d' >shown
    same shown page.0
    sed -nE -e 's/^\.Dl (planbook page .*) \| lp$/\1/p' -e '/^planbook .*\| planbook page /p' \
        "$here/cli/planbook.1" >lines
    holds "the manual page has three lines that make pages" [ "$(wc -l <lines)" -eq 3 ]
    PATH=$PWD:$PATH sh -e lines >got 2>../err
    judge "the examples of the manual page" 0 "" $?
    cat page.0 page.1 page.1 >wanted
    same got wanted
    if command -v jq >/dev/null; then
        sed -n 's/^\.Dl \(planbook show --json .*\)/\1/p' "$here/cli/planbook.1" >lines
        holds "the manual page finds the sheet of a trial" [ "$(PATH=$PWD:$PATH sh lines)" = 1 ]
    else
        skip "another program finds the sheet of a trial: no jq"
    fi
    cd "$work" || exit 2
    rm -rf example
}
