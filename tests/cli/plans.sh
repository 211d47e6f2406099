# shellcheck shell=sh disable=SC2086,SC2154
# (command lines are split into arguments; samples and functions are those of tests/cli/run)
#
# Part of tests/cli/run: plans as spreadsheets and people write them, and all that can be wrong with
# them.

header=trial,entry,replicate,row,column
good=41,7,2,12,3

# reads_as_sample WHAT FORMAT VALUE..: the plan that printf makes of them gives the sample book,
# without a message.
reads_as_sample() {
    what=$1
    shift
    # shellcheck disable=SC2059
    printf "$@" >in
    expect 0 "" pack --force --trials trials.csv - book
    holds "$what" cmp -s book clear
}

test_spreadsheets() {
    reads_as_sample "CR LF, no end of the last line, a leading zero" '%s\r\n041,7,2,12,3' $header
    reads_as_sample "a carriage return at the very end" '%s\r\n41,7,2,12,3\r' $header
    reads_as_sample "a byte order mark" '\357\273\277%s\n%s\n' $header $good
    reads_as_sample "semicolons" 'trial;entry;replicate;row;column\r\n41;7;2;12;3\r\n'
    reads_as_sample "tabs" 'trial\tentry\treplicate\trow\tcolumn\n41\t7\t2\t12\t3\n'
    reads_as_sample "quotes" '"trial","entry","replicate","row","column"\n"41","7","2","12","3"\n'
    reads_as_sample "quotes here and there, and semicolons" \
        '\357\273\277"trial";entry;replicate;row;"column"\n41;"7";2;12;"3"'
    reads_as_sample "capitals" 'TRIAL,Entry,rePlicate,ROW,Column\n%s\n' $good
    reads_as_sample "spaces around the names" 'Trial , entry,replicate ,"row ", column \n%s\n' $good
    reads_as_sample "spaces and tabs" ' trial\tentry \treplicate\trow\t column\n41\t7\t2\t12\t3\n'
    reads_as_sample "another order of the columns" 'column,row,replicate,entry,trial\n3,12,2,7,41\n'
    reads_as_sample "an empty line at the end" '%s\n%s\n\n' $header $good
    reads_as_sample "two empty lines at the end" '%s\n%s\n\n\n' $header $good
    reads_as_sample "empty rows at the end" '%s\n%s\n\n\r\n,,,,\n,\n' $header $good
    printf 'Start_Block;TRIAL\r\n"%s";41\r\n\r\n' "$(echo $start | tr a-f A-F)" >odd-trials.csv
    expect 0 "" pack --force --trials odd-trials.csv plan.csv book
    same book clear
    echo $header >in
    expect_exactly 0 "planbook: warning: standard input has a header and no plots" \
        pack --force - book
    unhex 01000000 >none
    same book none
    # columns that are not used
    cat >in <<'END'
remark,trial,entry,a "quoted" name,replicate,row,column,
"two
lines, and a ""quote""",41,7,,2,12,3,
END
    expect_exactly 0 'planbook: warning: standard input, line 1: the column "remark" is not used
planbook: warning: standard input, line 1: the column "a "quoted" name" is not used
planbook: warning: standard input, line 1: the column "" is not used' \
        pack --force --trials trials.csv - book
    same book clear
    rm -f book
}

# bad_plan STATUS SENTENCE LINE..: a plan whose lines after the header are these.
bad_plan() {
    status=$1
    sentence=$2
    shift 2
    { echo $header; [ $# -eq 0 ] || printf '%s\n' "$@"; } >damaged.csv
    expect_nothing x "$status" "$sentence" pack --trials trials.csv damaged.csv x
    expect_nothing x "$status" "$sentence" seal --key key128 damaged.csv x
    expect "$status" "$sentence" check damaged.csv
    same out empty
}

# bad_line STATUS MESSAGE LINE: the same for one line, whose message is the only one; the line's
# number is 2.
bad_line() {
    { echo $header; printf '%s\n' "$3"; } >damaged.csv
    expect_exactly "$1" "planbook: damaged.csv, line 2: $2" pack --trials trials.csv damaged.csv x
    holds "nothing is made of $3" [ ! -e x ]
}

# What is said of a replicate above the default.
replicate_5="replicate 5, but trial 41 has 4, the default"
replicate_5="$replicate_5; a file of trials (--trials) can say more [check 11]"

test_bad_lines() {
    bad_line 2 "the line has 4 fields instead of 5" 41,7,2,12
    bad_line 2 "the line has 6 fields instead of 5" $good,9
    bad_line 2 'the trial "x" is not a number from 0 to 4294967295' x,7,2,12,3
    bad_line 2 'the entry "4294967296" is not a number from 0 to 4294967295' 41,4294967296,2,12,3
    bad_line 2 'the entry "999999999999999" is not a number from 0 to 4294967295' \
        41,999999999999999,2,12,3
    bad_line 2 "the entry $not_shown is not a number from 0 to 4294967295" \
        41,9999999999999999,2,12,3
    bad_line 2 "the entry $not_shown is not a number from 0 to 4294967295" \
        41,99999999999999999999999999,2,12,3
    bad_line 2 'the entry "" is not a number from 0 to 4294967295' 41,,2,12,3
    bad_line 2 'the replicate "256" is not a number from 0 to 255' 41,7,256,12,3
    bad_line 2 'the row "-12" is not a number from 0 to 999' 41,7,2,-12,3
    bad_line 2 'the row " 12" is not a number from 0 to 999' '41,7,2, 12,3'
    bad_line 2 'the row "65536" is not a number from 0 to 999' 41,7,2,65536,3
    bad_line 2 'the row "" is not a number from 0 to 999' 41,7,2,,3
    bad_line 2 'the column "65536" is not a number from 0 to 999' 41,7,2,12,65536
    bad_line 2 'the column "reserve" is not a number from 0 to 999' 41,7,2,0,reserve
    bad_line 2 'the column "3:" is not a number from 0 to 999' 41,7,2,12,3:
    bad_line 2 'the column "3/" is not a number from 0 to 999' 41,7,2,12,3/
    bad_line 2 'the entry "1,024" is not a number from 0 to 4294967295' '41,"1,024",2,12,3'
    bad_line 2 'the entry "7"" is not a number from 0 to 4294967295' '41,"7""",2,12,3'
    bad_line 2 'there is more after the closing quote of a field' '41,"7"8,2,12,3'
    bad_line 2 'a quoted field has no end' '41,"7,2,12,3'
    letters=ghijklmnopqrstuvwxyzghijklmnopqrstuvwxyz
    bad_line 2 "the entry \"$letters\" is not a number from 0 to 4294967295" 41,$letters,2,12,3
    bad_line 2 "the entry \"$letters..\" is not a number from 0 to 4294967295" 41,${letters}x,2,12,3
    bad_line 2 "the entry \"${letters%z}..\" is not a number from 0 to 4294967295" \
        41,${letters%z}€,2,12,3
    bad_line 2 "the entry $not_shown is not a number from 0 to 4294967295" \
        "$(printf '41,\033[31m7,2,12,3')"
    bad_line 2 'the entry "süß" is not a number from 0 to 4294967295' 41,süß,2,12,3
    bad_line 1 "entry 0, but entries begin at 1 [check 11]" 41,0,2,12,3
    bad_line 1 "replicate 0, but replicates begin at 1 [check 11]" 41,7,0,12,3
    bad_line 1 "$replicate_5" 41,7,5,12,3
    bad_line 1 "trial 0, but trials begin at 1 [check 9]" 0,7,2,12,3
    bad_plan 2 "damaged.csv, line 3: the line is empty" $good '' 41,7,2,12,4
    bad_plan 2 "damaged.csv, line 3: the line is empty" $good ,,,, '' 41,7,2,12,4
    { echo $header; printf '41,7,2,12,3\0\n'; } >damaged.csv
    expect_nothing x 2 "damaged.csv, line 2: the column $not_shown is not a number" \
        pack damaged.csv x
    # every bad line is reported, whatever is wrong with it, and the status is that of the form
    printf '%s\n' $header 41,7,5,12,9 41,7,2,12 $good x,7,2,12,4 41,0,2,12,5 >damaged.csv
    expect_exactly 2 "planbook: damaged.csv, line 2: $replicate_5
planbook: damaged.csv, line 3: the line has 4 fields instead of 5
planbook: damaged.csv, line 5: the trial \"x\" is not a number from 0 to 4294967295
planbook: damaged.csv, line 6: entry 0, but entries begin at 1 [check 11]" check damaged.csv
    # line numbers count those in quotes
    printf 'trial,entry,replicate,row,column,note\n41,7,2,12,3,"a\nb\nc"\n41,7,2,x,3,\n' \
        >damaged.csv
    expect_nothing x 2 'damaged.csv, line 5: the row "x" is not' pack damaged.csv x
    # twenty are printed
    { echo $header; seq -f '41,0,1,1,%.0f' 1 20; } >damaged.csv
    expect 1 "damaged.csv, line 21: entry 0" check damaged.csv
    holds "twenty messages" [ "$(wc -l <err)" -eq 20 ]
    { echo $header; seq -f '41,0,1,1,%.0f' 1 1021; } >damaged.csv
    expect 1 "planbook: and 1,001 more faults" check damaged.csv
    holds "twenty messages and the number of the rest" [ "$(wc -l <err)" -eq 21 ]
    test_headers
}

test_headers() {
    bad='there is no column "entry" in the header; the columns are trial,entry,replicate,row,column'
    expect_exactly 2 "planbook: trials.csv, line 1: $bad" pack trials.csv x
    printf '41,7,2,12,3\n' >damaged.csv
    expect_nothing x 2 \
        'damaged.csv, line 1: there is no column "trial" in the header; the columns are' \
        pack damaged.csv x
    printf '%s,row \n%s,1\n' $header $good >damaged.csv
    expect_nothing x 2 'damaged.csv, line 1: there is more than one column "row"' pack damaged.csv x
    printf '"trial,entry\n' >damaged.csv
    expect_nothing x 2 'damaged.csv, line 1: a quoted field has no end' pack damaged.csv x
    { printf %s $header; seq -f ',c%.0f' 1 252 | tr -d '\n'; echo; } >damaged.csv
    expect_nothing x 2 'damaged.csv, line 1: there are more than 256 columns' pack damaged.csv x
    printf '\377\376t\0r\0' >damaged.csv
    expect_nothing x 2 'damaged.csv is UTF-16 text: save it as CSV in UTF-8' pack damaged.csv x
    expect_nothing x 2 'damaged.csv is UTF-16 text: save it as CSV in UTF-8' \
        seal --key key128 damaged.csv x
    printf '\376\377\0t\0r' >damaged.csv
    expect_nothing x 2 'damaged.csv is UTF-16 text: save it as CSV in UTF-8' \
        seal --key key128 damaged.csv x
    expect_nothing x 2 "empty, line 1: the file is empty" pack empty x
    expect_nothing x 2 "clear is a clear book, and a plan (CSV) is needed here" pack clear x
    expect_nothing x 2 "sealed128 is a sealed book, and a plan (CSV) is needed here" \
        pack sealed128 x
    expect_nothing x 2 "clear is a clear book" pack --trials clear plan.csv x
    expect_nothing x 2 "/dev/zero: too long for a plan, above 1,048,576 bytes" pack /dev/zero x
    yes 41,7,2,12,3 | head -c 1048577 >long.csv
    expect_nothing x 2 "long.csv: too long for a plan, above 1,048,576 bytes" \
        seal --key key128 long.csv x
    expect_nothing x 2 "cannot open missing" pack --trials missing plan.csv x
    rm -f long.csv
}

# plots TRIAL COUNT: as many lines, each on a plot of its own, 500 of them to a row.
plots() {
    seq 0 $(($2 - 1)) |
        awk -v trial="$1" '{ printf "%s,7,1,%d,%d\n", trial, $1 / 500 + 1, $1 % 500 + 1 }'
}

# Limits of a book, and plots that two records share.
test_limits() {
    { echo $header; plots 41 1024; } >damaged.csv
    expect 0 "" check damaged.csv
    { echo $header; plots 41 1025; } >damaged.csv
    expect_exactly 1 "planbook: damaged.csv: trial 41 has 1,025 plots, at most 1,024 [check 9]" \
        check damaged.csv
    { echo $header; seq -f '%.0f,1,1,1,1' 1 64; } >damaged.csv
    expect 0 "" check damaged.csv
    { echo $header; seq -f '%.0f,1,1,1,1' 1 65; } >damaged.csv
    said="planbook: damaged.csv: 65 trials do not fit one book, which has at most 64"
    expect_exactly 1 "$said; make two plans of it [check 7]" check damaged.csv
    # 5,000 plots in five trials
    { echo $header; for trial in 1 2 3 4 5; do plots $trial 1000; done; } >damaged.csv
    said="planbook: damaged.csv: 5,000 plots do not fit one book: with the contents of 5 trials"
    said="$said they take 80,124 bytes, at most 65,532; make two plans of it [check 5]"
    expect_exactly 1 "$said" check damaged.csv
    # the largest book, and one plot more
    { echo $header; for trial in 1 2 3 4; do plots $trial 1000; done; plots 5 88; } >damaged.csv
    expect 0 "" seal --key key128 damaged.csv x
    holds "the largest book" [ "$(wc -c <x)" -eq 65532 ]
    rm -f x
    echo 5,7,1,1,89 >>damaged.csv
    expect_nothing x 1 "4,089 plots do not fit one book" seal --key key128 damaged.csv x
    # all limits and a bad line at once
    { echo $header; seq -f '41,7,5,1,%.0f' 1 4096; } >damaged.csv
    expect 1 "planbook: and 4,076 more faults" check damaged.csv
    expect 1 "trial 41 has 4,096 plots, at most 1,024 [check 9]" check damaged.csv
    expect 1 "4,096 plots do not fit one book" check damaged.csv
    # two records on one plot
    printf '%s\n' $header $good 42,7,2,12,3 41,8,2,12,4 41,9,1,12,3 41,9,1,13,3 >damaged.csv
    said="planbook: warning: damaged.csv, line 5: trial 41 has a record at row 12, column 3"
    expect_exactly 0 "$said in line 2 already" check damaged.csv
    expect 0 "warning: damaged.csv, line 5" seal --key key128 damaged.csv x
    expect 0 "" open --csv --key key128 x
    printf '%s\n' $header $good 41,8,2,12,4 41,9,1,12,3 41,9,1,13,3 42,7,2,12,3 >wanted
    same out wanted
    { echo $header; yes $good | head -n 30; } >damaged.csv
    expect 0 "planbook: warning: and 9 more warnings" check damaged.csv
    holds "twenty warnings and the number of the rest" [ "$(wc -l <err)" -eq 21 ]
    rm -f x
}
