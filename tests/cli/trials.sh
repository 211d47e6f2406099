# shellcheck shell=sh disable=SC2086,SC2154
# (command lines are split into arguments; samples and functions are those of tests/cli/run)
#
# Part of tests/cli/run: the file of trials, its start blocks and numbers of replicates, and books
# of past seasons.

# plan_of LINE..: a plan whose lines after the header are these.
plan_of() { printf '%s\n' $header "$@" >damaged-plan.csv; }

# bad_trials STATUS SENTENCE HEADER LINE..: a file of trials that is refused, whatever it is given
# for.
bad_trials() {
    status=$1
    sentence=$2
    shift 2
    printf '%s\n' "$@" >damaged.csv
    expect_nothing x "$status" "$sentence" pack --trials damaged.csv plan.csv x
    expect_nothing x "$status" "$sentence" seal --key key128 --trials damaged.csv plan.csv x
    expect "$status" "$sentence" check --trials damaged.csv plan.csv
}

both=trial,start_block

# Which trials have a line, which columns there are, and where the file is taken.
test_trials() {
    plan_of $good 42,7,2,12,3 40,7,2,12,3
    expect_exactly 2 "planbook: damaged-plan.csv, line 4: trial 40 has no line in trials.csv
planbook: damaged-plan.csv, line 3: trial 42 has no line in trials.csv" \
        pack --trials trials.csv damaged-plan.csv x
    plan_of
    expect_nothing x 2 "trials.csv, line 2: trial 41 has no line in damaged-plan.csv" \
        pack --trials trials.csv damaged-plan.csv x
    bad_trials 2 "damaged.csv, line 3: trial 41 is in line 2 already" $both 41,$start 41,$cipher128
    bad_trials 2 "damaged.csv, line 2: trial 40 has no line in plan.csv" \
        $both 40,$start 41,$cipher128
    bad_trials 2 "damaged.csv, line 3: trial 43 has no line in plan.csv" \
        $both 41,$start 43,$cipher128
    bad_trials 2 "plan.csv, line 2: trial 41 has no line in damaged.csv" $both
    bad_trials 2 "damaged.csv, line 2: the line has 1 fields instead of 2" $both 41
    bad_trials 2 'damaged.csv, line 2: the trial "x" is not a number from 0 to 4294967295' \
        $both x,$start
    # the columns that may be absent, and names that are nearly theirs
    said='damaged.csv, line 1: there is no column "trial" in the header; the columns are'
    bad_trials 2 "$said trial,start_block,replicates" replicates 8
    bad_trials 2 'damaged.csv, line 1: there is more than one column "replicates"' \
        trial,replicates,Replicates 41,8,8
    for near in replicate REPLICATE 'replicates per trial' Replicates? 'replicates_'; do
        said="damaged.csv, line 1: the column \"$near\" is not known"
        bad_trials 2 "$said; if it is meant as \"replicates\", name it so" "trial,$near" 41,8
    done
    for near in 'Start block' start-block startblock start_blocks; do
        said="damaged.csv, line 1: the column \"$near\" is not known"
        bad_trials 2 "$said; if it is meant as \"start_block\", name it so" "trial,$near" 41,$start
    done
    # spaces around a name do not count
    printf ' Trial ,replicates \n41,8\n' >odd.csv
    expect 0 "" check --trials odd.csv plan.csv
    printf 'trial,remark,replicates\n41,seedlings,0\n' >odd.csv
    expect_exactly 0 'planbook: warning: odd.csv, line 1: the column "remark" is not used' \
        check --trials odd.csv plan.csv
    printf 'trial,rep\n41,8\n' >odd.csv
    expect 0 'the column "rep" is not used' check --trials odd.csv plan.csv
    expect_nothing x 2 'the column "replicate" is not known' pack --trials plan.csv plan.csv x
    # only where there is a plan
    said="planbook: clear is not a plan (CSV), and --trials goes with a plan"
    expect_exactly 2 "$said: a book has its trials in its contents" \
        seal --key key128 --trials trials.csv clear x
    expect_exactly 2 \
        "planbook: --trials goes with a plan: name an output that ends in .csv, or give --csv" \
        open --key key128 --trials y sealed128 x
    expect_nothing y 2 "show has no option --trials" show --trials y clear
    expect_nothing x 2 "plan and trials cannot both go to standard output" \
        open --csv --key key128 --trials - sealed128
    expect 0 "" open --csv --key key128 --trials - sealed128 x
    same out trials.csv
    same x plan.csv
    rm -f x
    expect 0 "" open --csv --key key128 --trials y sealed128
    same out plan.csv
    same y trials.csv
    mode_is 600 y
    rm -f y
    # the former name of the option, and the file as it was then
    printf 'trial,start_block\n41,%s\n' $start >starts.csv
    expect 0 "" pack --starts starts.csv plan.csv x
    same x clear
    expect 0 "" unpack --starts=y x
    same y trials.csv
    expect 2 "--trials is given twice" pack --starts starts.csv --trials trials.csv plan.csv
    rm -f x y
}

test_start_blocks() {
    bad="damaged.csv, line 2: the start block is not 32 hexadecimal digits"
    bad_trials 2 "$bad: there are 33" $both 41,${start}0
    bad_trials 2 "$bad: byte 1 is none" $both 41,x${start#0}
    bad_trials 2 "$bad: byte 2 is none" $both 41,4g${start#00}
    bad_trials 2 "$bad: byte 1 is none" $both 41,g4${start#00}
    bad_trials 2 "$bad: there are 0" $both 41,
    zeros=00000000000000000000000000000000
    printf '%s\n' $both 41,$zeros >damaged.csv
    drawn="without the column start_block, good ones are drawn"
    expect_exactly 2 "planbook: damaged.csv: the start block of trial 41 is all zeros; $drawn" \
        pack --trials damaged.csv plan.csv x
    printf '%s\n' $header $good 42,7,2,12,3 43,7,2,12,3 >three.csv
    printf '%s\n' $both 41,$start 42,$cipher128 43,$start >damaged.csv
    expect_exactly 2 "planbook: damaged.csv: trials 41 and 43 have the same start block; $drawn" \
        pack --trials damaged.csv three.csv x
    expect 2 "trials 41 and 43 have the same start block" check --trials damaged.csv three.csv
    # seal never takes start blocks from a file, since those there have been used
    unused="planbook: warning: damaged.csv: the start blocks are not used, since seal draws new"
    unused="$unused ones each time; pack uses them"
    expect_exactly 0 "$unused" seal --key key128 --trials damaged.csv three.csv x
    holds "seal draws start blocks" \
        [ "$("$planbook" show x | grep -ce $start -e $cipher128)" -eq 0 ]
    rm -f x
    printf 'trial\n41\n' >odd.csv
    with_fault count seal --key key128 --trials odd.csv plan.csv x
    judge "seal with a file of trials without start blocks" 0 "" $?
    holds "the start block is what the system gave" \
        [ "$("$planbook" show x | grep -c 0102030405060708090a0b0c0d0e0f10)" -eq 1 ]
    # a clear book that another program made is sealed, with a warning
    unhex 01000002 0000002900010000$zeros 0000002a00010000$zeros $record \
        0000002a0000000702000c0003000000 >weak
    expect_exactly 0 \
        "planbook: warning: weak: the start block of trial 41 is all zeros; pack draws good ones
planbook: warning: weak: the start block of trial 42 is all zeros; pack draws good ones" \
        seal --force --key key128 weak x
    unhex 01000002 0000002900010000$start 0000002a00010000$start $record \
        0000002a0000000702000c0003000000 >weak
    said="planbook: warning: weak: trials 41 and 42 have the same start block; pack draws good ones"
    expect_exactly 0 "$said" seal --force --key key128 weak x
    rm -f x
}

# numbered BYTE: the sample book with this number of replicates, in two hexadecimal digits
numbered() { unhex 01000001 000000290001${1}00$start $record; }

test_replicates() {
    # every number that there is, packed, shown and unpacked as written: 0 and 4 are not the same
    for number in 0 2 3 4 5 6 7 8; do
        numbered 0$number >wanted
        printf 'trial,start_block,replicates\n41,%s,%s\n' $start $number >numbers.csv
        expect 0 "" pack --trials numbers.csv plan.csv book
        same book wanted
        expect 0 "" unpack --trials y.csv book x.csv
        same y.csv numbers.csv
        same x.csv plan.csv
        expect 0 "" show book
        in_force="$number          "
        [ $number -ne 0 ] || in_force="4 (default)"
        sed -n 4p out >got
        echo "        41       1          $in_force  $start" >wanted
        holds "show of number $number" cmp -s got wanted
        rm -f book x.csv y.csv
    done
    numbered 04 >book
    expect 0 "" show --json book
    holds "a number that was chosen, in JSON" \
        grep -qF '"replicates": 4, "replicates_by_default": false' out
    # the plan alone does not say the number
    lost="a plan does not say the number of replicates, which 1 of 1 trials have chosen"
    lost="$lost; --trials writes a file that does"
    expect_exactly 0 "planbook: warning: book: $lost" unpack book
    same out plan.csv
    expect 0 "" seal --key key128 book x
    expect_exactly 0 "planbook: warning: x: $lost" open --csv --key key128 x
    same out plan.csv
    rm -f x book
    # eight replicates, sealed and opened in one step, without start blocks
    { echo $header; seq -f '41,7,%.0f,12,1' 1 8; echo 42,7,4,1,1; } >seedlings.csv
    printf 'trial,replicates\n42,0\n41,8\n' >numbers.csv
    expect 0 "planbook: warning: seedlings.csv, line 3" \
        seal --key key128 --trials numbers.csv seedlings.csv s
    expect 0 "" open --key key128 --trials y.csv s x.csv
    same x.csv seedlings.csv
    cut -d , -f 1,3 y.csv >got
    printf 'trial,replicates\n41,8\n42,0\n' >wanted
    same got wanted
    rm -f s x.csv y.csv
    # a record above its trial's number
    expect 1 "seedlings.csv, line 6: $replicate_5" check seedlings.csv
    printf 'trial,replicates\n41,7\n42,3\n' >numbers.csv
    plan_of 41,7,8,12,1 41,7,7,12,2 42,7,3,1,1 42,7,4,1,2
    expect_exactly 1 "planbook: damaged-plan.csv, line 2: replicate 8, but trial 41 has 7 [check 11]
planbook: damaged-plan.csv, line 5: replicate 4, but trial 42 has 3 [check 11]" \
        check --trials numbers.csv damaged-plan.csv
    # wrong numbers, each with its line
    at_most_8="but a trial has 1 to 8, or 0 for the default of 4 [check 9]"
    for number in 9 255; do
        bad_trials 1 "damaged.csv, line 2: $number replicates, $at_most_8" \
            trial,replicates 41,$number
    done
    for number in 256 -1 x '' ' 8' 8.0 4294967297; do
        said="damaged.csv, line 2: the number of replicates \"$number\" is not a number from 0 to 8"
        bad_trials 2 "$said" trial,replicates "41,$number"
    done
    # all of them are reported, and no record is reported for them
    printf 'trial,start_block,replicates\n41,4g,9\n42,%s,x\n' $start >damaged.csv
    plan_of 41,7,5,12,1 42,7,9,1,1
    expect_exactly 2 \
        "planbook: damaged.csv, line 2: the start block is not 32 hexadecimal digits: byte 2 is none
planbook: damaged.csv, line 2: 9 replicates, $at_most_8
planbook: damaged.csv, line 3: the number of replicates \"x\" is not a number from 0 to 8
planbook: damaged-plan.csv, line 3: replicate 9, but trial 42 has 8 [check 11]" \
        check --trials damaged.csv damaged-plan.csv
    rm -f x
}

# opens_as_before FOLDER: what was sealed in a past season opens to its clear book, and is sealed to
# the same bytes.
opens_as_before() {
    for way in 1 2 3; do
        expect 0 "" open --key-hex past.hex --way $way "$1/sealed.book" x
        same x "$1/clear.book"
        expect 0 "" seal --key-hex past.hex --way $way "$1/clear.book" y
        same y "$1/sealed.book"
        rm -f x y
    done
}

# is_refused_since FOLDER TRIAL PLACE SENTENCE: a book that was good in its season, with a plot that
# breaks the rule of today.
is_refused_since() {
    refused="planbook: $1/clear.book, trial $2, place $3: $4 [check 11]"
    for line in "seal --key-hex past.hex --way 1" "seal --key-hex past.hex --way 2" \
        "seal --key-hex past.hex --way 3" show "unpack --trials y" page; do
        expect_exactly 1 "$refused" $line "$1/clear.book" x
        holds "$line makes nothing of $1" [ ! -e x ]
        holds "$line makes no trials of $1" [ ! -e y ]
    done
    for line in "open --way 1" "open --way 2" "open --way 3" "open --csv --trials y" show; do
        expect_exactly 1 "planbook: $1/sealed.book $not_opened [check 11]" \
            $line --key-hex past.hex "$1/sealed.book" x
        holds "$line makes nothing of $1" [ ! -e x ]
        holds "$line makes no trials of $1" [ ! -e y ]
    done
    expect_nothing x 1 "$1/sealed.book $not_opened [check 11]" \
        find --key-hex past.hex "$1/sealed.book" "$2" "$3"
}

# is_mended FOLDER LINE OLD NEW: its plan names the line; mended, it is sealed anew, and opens. No
# label stays what it was.
is_mended() {
    expect_exactly 1 "planbook: $1/plan.csv, line $2 [check 11]" \
        check --trials "$1/trials.csv" "$1/plan.csv"
    sed "s/,$3\$/,$4/" "$1/plan.csv" >mended.csv
    holds "the plan of $1 has one bad plot" \
        [ "$(diff "$1/plan.csv" mended.csv | grep -c '^>')" -eq 1 ]
    expect 0 "the start blocks are not used" \
        seal --key-hex past.hex --trials "$1/trials.csv" mended.csv x
    expect 0 "" open --key-hex past.hex --trials y.csv x x.csv
    same x.csv mended.csv
    holds "the trials of $1 keep their numbers" \
        [ "$(cut -d , -f 1,3 y.csv)" = "$(cut -d , -f 1,3 "$1/trials.csv")" ]
    "$planbook" labels "$1/sealed.book" | sort >labels-then
    "$planbook" labels x | sort >labels-now
    holds "the labels of $1 are still printed" \
        [ "$(wc -l <labels-then)" -eq $(($(wc -l <"$1/plan.csv") - 1)) ]
    holds "the labels of $1 are others now" [ -z "$(comm -12 labels-then labels-now)" ]
    rm -f x y.csv x.csv mended.csv labels-then labels-now
}

# Books and files that commands of past seasons have made. tests/past/README.md says how.
test_past_seasons() {
    past=$here/tests/past/0.2.0
    install -m 600 "$past/key-not-secret.hex" past.hex
    opens_as_before "$past"
    expect 0 "" open --key-hex past.hex "$past/sealed.book" x.csv
    same x.csv "$past/plan.csv"
    expect 0 "" pack --starts "$past/starts.csv" "$past/plan.csv" book
    same book "$past/clear.book"
    expect 0 "" unpack --trials y.csv --force book x.csv
    same x.csv "$past/plan.csv"
    sed -e '1s/$/,replicates/' -e '2,$s/$/,0/' "$past/starts.csv" >wanted
    same y.csv wanted
    expect 0 "" pack --force --trials y.csv x.csv book
    same book "$past/clear.book"
    expect 0 "" show "$past/sealed.book"
    holds "every trial of a past season has four replicates, by default" \
        [ "$(grep -c ' 4 (default) ' out)" -eq 3 ]
    rm -f book x.csv y.csv
    test_past_plots
    rm -f past.hex
}

# The season before the rule of plots.
test_past_plots() {
    past=$here/tests/past/1.1.0
    install -m 600 "$past/key-not-secret.hex" past.hex
    opens_as_before "$past"
    expect 0 "" open --key-hex past.hex --trials y.csv "$past/sealed.book" x.csv
    same x.csv "$past/plan.csv"
    same y.csv "$past/trials.csv"
    expect 0 "" pack --trials "$past/trials.csv" "$past/plan.csv" book
    same book "$past/clear.book"
    expect 0 "" check --trials "$past/trials.csv" "$past/plan.csv"
    echo "trials 4, plots 13, in reserve 4, bytes of the book 308" >wanted
    same out wanted
    rm -f book x.csv y.csv
    row="row 1000, but rows are from 1 to 999, or 0 in reserve"
    is_refused_since "$past-row-1000" 42 1 "$row"
    is_mended "$past-row-1000" "5: $row" 1000,4 999,4
    half="row 0 and column 3: a plot in reserve has 0 for both, any other has both from 1 to 999"
    is_refused_since "$past-half-in-reserve" 41 1 "$half"
    is_mended "$past-half-in-reserve" "3: $half" 0,3 0,0
}
