# shellcheck shell=sh disable=SC2086,SC2154
# (command lines are split into arguments; samples and functions are those of tests/cli/run)
#
# Part of tests/cli/run: the rule of plots. Row and column are both from 1 to 999, or both 0: then
# the plot is in reserve.

# books_of_plot ROW COLUMN: the sample book with this plot, clear and sealed under key128, as
# plot.clear and plot.sealed, and its plan and trials. The start block is again the record ^
# 000102..0f, so that the sealed record is the ciphertext of the specification.
books_of_plot() {
    plot_start=0001022a040506000a$(printf %04x%04x $(($1 ^ 0x090a)) $(($2 ^ 0x0b0c)))0d0e0f
    unhex 01000001 0000002900010000$plot_start \
        "000000290000000702$(printf %04x%04x "$1" "$2")000000" >plot.clear
    unhex 02000001 0000002900010000$plot_start $cipher128 >plot.sealed
    printf '%s\n' $header 41,7,2,$1,$2 >plot.csv
    printf '%s\n' $both,replicates 41,$plot_start,0 >plot-trials.csv
}

good_plot() {
    books_of_plot "$1" "$2"
    for way in 1 2 3; do
        expect 0 "" seal --key key128 --way $way plot.clear x
        same x plot.sealed
        expect 0 "" open --key key128 --way $way plot.sealed y
        same y plot.clear
        rm -f x y
    done
    expect 0 "" pack --trials plot-trials.csv plot.csv x
    same x plot.clear
    expect 0 "" unpack --trials y x
    same out plot.csv
    same y plot-trials.csv
    rm -f x y
}

# bad_plot ROW COLUMN SENTENCE: refused under check 11, and nothing is written: in a book by all
# that read its records, in a plan by all that read plans.
bad_plot() {
    books_of_plot "$1" "$2"
    for line in "seal --key key128 --way 1" "seal --key key128 --way 2" \
        "seal --key key128 --way 3" show unpack page; do
        expect_exactly 1 "planbook: plot.clear, trial 41, place 0: $3 [check 11]" $line plot.clear x
        holds "$line makes nothing of plot $1,$2" [ ! -e x ]
    done
    for line in "open --way 1" "open --way 2" "open --way 3" "open --csv" show; do
        expect_exactly 1 "planbook: plot.sealed $not_opened [check 11]" \
            $line --key key128 plot.sealed x
        holds "$line makes nothing of plot $1,$2" [ ! -e x ]
    done
    expect_nothing x 1 "plot.sealed $not_opened [check 11]" find --key key128 plot.sealed $cipher128
    bad_plan 1 "damaged.csv, line 3: $3 [check 11]" 41,7,2,1,1 41,7,2,$1,$2
    bad_line 1 "$3 [check 11]" 41,7,2,$1,$2
}

# What is said of a plot of which only one number is 0.
half_in_reserve="a plot in reserve has 0 for both, any other has both from 1 to 999"

test_plots() {
    for plot in 0,0 1,1 999,999 1,999 999,1 256,1 1,256; do
        good_plot ${plot%,*} ${plot#*,}
    done
    for plot in 0,1 1,0 999,0 0,999 0,256 256,0; do
        bad_plot ${plot%,*} ${plot#*,} \
            "row ${plot%,*} and column ${plot#*,}: $half_in_reserve"
    done
    for plot in 1000,0 1000,1 1000,1000 1025,1 32769,1 65535,65535; do
        bad_plot ${plot%,*} ${plot#*,} "row ${plot%,*}, but rows are from 1 to 999, or 0 in reserve"
    done
    for plot in 0,1000 1,1000 1,1025 1,32769 999,65535; do
        bad_plot ${plot%,*} ${plot#*,} \
            "column ${plot#*,}, but columns are from 1 to 999, or 0 in reserve"
    done
    # a sealed book is refused for its records alone: what can be read without the key is still
    # printed
    expect 0 "" labels plot.sealed
    echo "41 0 $cipher128" >wanted
    same out wanted
    expect 0 "" show plot.sealed
}

# Plots in reserve: counted by check, in words by show and find, as zeros in plans, and never called
# shared.
test_reserve() {
    printf '%s\n' $header $good 41,8,1,0,0 41,9,1,999,999 41,8,2,0,0 42,1,1,0,0 >spare.csv
    printf '%s\n' $both 41,$start 42,$cipher128 >two.csv
    expect 0 "" check spare.csv
    echo "trials 2, plots 5, in reserve 3, bytes of the book 132" >wanted
    same out wanted
    expect 0 "" pack --trials two.csv spare.csv book
    cat >table <<END
clear plan book: sheets 2, records 5, bytes 132

     TRIAL RECORDS REPLICATES            START BLOCK
        41       4          4 (default)  $start
        42       1          4 (default)  $cipher128

     TRIAL PLACE      ENTRY REPLICATE   ROW COLUMN
        41     0          7         2    12      3
        41     1          8         1      reserve
        41     2          9         1   999    999
        41     3          8         2      reserve
        42     0          1         1      reserve
END
    expect 0 "" show book
    same out table
    expect 0 "" seal --key key128 book s
    expect 0 "" open --csv --key key128 s
    same out spare.csv
    sed -n '7p;11p' table >wanted
    expect 0 "" find --key key128 s 41 3
    same out wanted
    {
        printf '{"trial": 41, "place": 3, "entry": 8, "replicate": 2, '
        echo '"row": 0, "column": 0, "reserve": true}'
    } >wanted
    expect 0 "" find --json --key key128 s 41 3
    same out wanted
    expect 0 "" show --json book
    holds "two records of five have a place, in JSON" [ "$(grep -c '"reserve": false}' out)" -eq 2 ]
    holds "the others are in reserve" \
        [ "$(grep -c '"row": 0, "column": 0, "reserve": true}' out)" -eq 3 ]
    rm -f book s
    test_shared_with_reserve
}

test_shared_with_reserve() {
    printf '%s\n' $header 41,7,2,00,000 $good 41,8,1,0,0 41,9,1,12,3 41,7,2,0,0 >damaged.csv
    said="planbook: warning: damaged.csv, line 5: trial 41 has a record at row 12, column 3"
    expect_exactly 0 "$said in line 3 already" check damaged.csv
    echo "trials 1, plots 5, in reserve 3, bytes of the book 108" >wanted
    same out wanted
    # half in reserve is not reserve
    for plot in 0,3 3,0; do
        printf '%s\n' $header 41,7,2,$plot 41,8,2,$plot >damaged.csv
        half="row ${plot%,*} and column ${plot#*,}: $half_in_reserve [check 11]"
        shared="trial 41 has a record at row ${plot%,*}, column ${plot#*,} in line 2 already"
        expect_exactly 1 "planbook: damaged.csv, line 2: $half
planbook: damaged.csv, line 3: $half
planbook: warning: damaged.csv, line 3: $shared" check damaged.csv
    done
}
