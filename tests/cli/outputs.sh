# shellcheck shell=sh disable=SC2086,SC2154
# (command lines are split into arguments; samples and functions are those of tests/cli/run)
#
# Part of tests/cli/run: outputs appear whole or not at all, and nothing is lost.

test_existing_outputs() {
    cp precious old
    expect 2 "old exists" seal --key key128 clear old
    expect 2 "old exists" unpack --trials new clear old
    expect 2 "old exists" unpack --trials old clear new
    holds "no half of an unpacked plan" [ ! -e new ]
    expect 1 "[check 11]" open --force --key key192 sealed128 old
    same old precious
    expect 0 "" seal --force --key key128 clear old
    same old sealed128
    ln -s clear link
    ln clear twin
    cp clear kept
    for line in "seal --force --key key128" "note --force --key key128 --counter $counter"; do
        for name in clear ./clear twin link key128; do
            expect 2 "$name is an input as well" $line clear $name
        done
        cp clear in
        expect 2 "in is an input as well" $line - in
        "$planbook" $line clear >>twin 2>err
        judge "standard output is the input" 2 "standard output is an input as well" $?
    done
    same clear kept
    rm link twin
    ln -s precious link
    expect 2 "link exists and is not a regular file" seal --force --key key128 clear link
    same precious link
    # a pipe, for devices as well: a mistake here must not replace one when root runs the test
    mkfifo pipe
    for name in folder folder/ pipe; do
        expect 2 "$name exists and is not a regular file" seal --force --key key128 clear $name
    done
    for name in missing/x missing/ precious/x ''; do
        expect 2 "cannot make $name: " seal --key key128 clear "$name"
    done
    # two outputs of one name, whether the file is there or not
    one="both outputs go to one file"
    own="give each a file of its own"
    ln -s . here
    for name in both ./both here/both "$PWD/both"; do
        expect_nothing both 2 "$one, $name: $own" unpack --trials "$name" clear both
        expect_nothing both 2 "$one, $name: $own" unpack --force --trials "$name" clear both
        expect_nothing both.csv 2 "$one, $name.csv: $own" \
            open --key key128 --trials "$name.csv" sealed128 both.csv
        cp precious both
        expect 2 "$one, $name: $own" unpack --force --trials "$name" clear both
        same both precious
        rm -f both
    done
    rm -f here
    expect 0 "" unpack --trials folder/both clear both
    same folder/both trials.csv
    same both plan.csv
    cp precious both
    ln both twin
    expect 2 "$one, twin: $own" unpack --force --trials twin clear both
    same both precious
    rm -f folder/both twin
    expect_nothing x 2 "cannot make missing/y" unpack --trials missing/y clear x
    rm -f both link old kept
    # a failed --force leaves both files as they were, or the one that it did not come to
    cp precious a
    cp precious b
    with_fault no-rename:1 unpack --force --trials b clear a
    judge "the first of two files cannot be replaced" 2 "cannot make a: Input/output error" $?
    same a precious
    same b precious
    with_fault no-rename:2 unpack --force --trials b clear a
    judge "the second of two files cannot be replaced" 2 "cannot make b: Input/output error" $?
    same a plan.csv
    same b precious
    with_fault no-rename:1 unpack --force --trials a clear y
    judge "the file that exists cannot be replaced" 2 "cannot make a: Input/output error" $?
    same a plan.csv
    holds "the other is not made" [ ! -e y ]
    rm -f a b
}

# What a replaced file had stays: its mode, its group, and nothing for another group.
test_modes() {
    (umask 022 && "$planbook" seal --key key128 clear s) 2>err
    mode_is 644 s
    (umask 027 && "$planbook" seal --force --key key128 clear t) 2>err
    mode_is 640 t
    rm -f t
    for mode in 600 640 664; do
        chmod $mode s
        expect 0 "" seal --force --key key128 clear s
        mode_is $mode s
    done
    cp precious p
    chmod 644 p
    expect_exactly 0 "planbook: warning: p keeps its mode 644, so others may read it" \
        open --force --key key128 sealed128 p
    mode_is 644 p
    same p clear
    chmod 600 p
    expect 0 "" open --force --key key128 sealed128 p
    if [ "$(id -u)" -eq 0 ]; then
        chmod 600 s
        chown 65534:65534 s
        for line in "seal --force --key key128 clear" \
            "note --force --key key128 --counter $counter note"; do
            expect 0 "" $line s
            holds "planbook $line: owner and group stay" [ "$(stat -c %u:%g s)" = 65534:65534 ]
        done
        chmod 664 s
        with_fault no-owner seal --force --key key128 clear s
        judge "owner and group cannot stay" 0 "" $?
        mode_is 604 s
    else
        skip "owner and group of a replaced file: not run by root"
    fi
    with_fault no-mode open --key key128 sealed128 x
    judge "a file system without modes" 0 "" $?
    mode_is 600 x
    rm -f s p x
}

# A USB stick: no links, perhaps no rename that does not replace.
test_no_links() {
    for fault in no-link no-link,no-noreplace; do
        with_fault $fault seal --key key128 clear x
        judge "$fault" 0 "" $?
        same x sealed128
        rm -f x
        with_fault $fault unpack --trials y clear x
        judge "$fault, two outputs" 0 "" $?
        same x plan.csv
        same y trials.csv
        rm -f x y
        with_fault $fault,race:x seal --key key128 clear x
        judge "$fault, the output appears meanwhile" 2 "cannot make x: File exists" $?
        same x empty
        rm -f x
        with_fault $fault,late-race:x unpack --trials x clear y
        judge "$fault, one of two outputs appears meanwhile" 2 "cannot make x: File exists" $?
        same x empty
        holds "$fault: the other is not made" [ ! -e y ]
        rm -f x y
        with_fault $fault keygen k
        judge "$fault, a key" 0 "" $?
        mode_is 600 k
        rm -f k
    done
    with_fault no-link,no-noreplace,no-rename:1 seal --key key128 clear x
    judge "a name that is reserved and cannot be used" 2 "cannot make x: Input/output error" $?
    holds "the reserved name is given up" [ ! -e x ]
    with_fault directory:5 seal --key key128 clear folder/x
    judge "a directory that cannot be synchronised" \
        2 "folder/x is made, but its directory cannot be synchronised: Input/output error" $?
    same folder/x sealed128
    with_fault directory:22 seal --force --key key128 clear folder/x
    judge "a file system that cannot synchronise directories" 0 "" $?
    rm -f folder/x
}

test_full_disk() {
    for line in "seal --key key128 clear" "open --key key128 sealed128" "show clear" \
        "labels sealed128" "pack --trials trials.csv plan.csv" "unpack --trials x clear" \
        "unpack clear" "find --key key128 sealed128 41 0" "check plan.csv" "keygen -" "page clear" \
        "note --key key128 --counter $counter note" "--help" "help seal" "--version"; do
        "$planbook" $line >/dev/full 2>err
        judge "planbook $line, full disk" \
            2 "cannot write standard output: No space left on device" $?
        "$planbook" $line >&- 2>err
        judge "planbook $line, standard output closed" 2 "cannot write standard output" $?
    done
    holds "no start blocks without their plan" [ ! -e x ]
    # Under a file size limit the message must not go to a file.
    { (ulimit -f 0; "$plain" seal --key key128 clear x 2>&1; echo "status $?") | cat; } >err
    holds "file size limit, exit status" grep -q "status 2" err
    judge "file size limit" 2 "cannot write x: File too large" 2
    with_fault full seal --key key128 clear x
    judge "disk full in the middle of a file" 2 "cannot write x: No space left on device" $?
    with_fault full unpack --trials y clear x
    judge "disk full in the middle of two files" 2 "cannot write x: No space left on device" $?
    holds "no part of a file" [ ! -e x ]
    holds "no part of a second file" [ ! -e y ]
}

test_signals() {
    for signal in 1 2 3 13 14 15; do
        with_fault signal:$signal unpack --trials folder/y clear x
        status=$?
        : >err # the shell writes about the signal there
        judge "ended by signal $signal" $((128 + signal)) "" $status
        holds "signal $signal: no output" [ ! -e x ]
        holds "signal $signal: no second output" [ ! -e folder/y ]
    done
    for signal in 1 2 13 15; do # as under nohup
        (trap '' $signal && with_fault signal:$signal seal --key key128 clear x)
        judge "signal $signal is ignored" 0 "" $?
        same x sealed128
        rm -f x
    done
    with_fault race:x seal --key key128 clear x
    judge "the output appears meanwhile" 2 "cannot make x: File exists" $?
    same x empty
    rm -f x
    for other in x y; do # either of two
        with_fault late-race:$other unpack --trials x clear y
        judge "one of two outputs appears meanwhile" 2 "cannot make $other: File exists" $?
        same $other empty
        rm -f $other
        holds "the other does not" [ ! -e x ]
        holds "the other does not" [ ! -e y ]
        rm -f x y
    done
}

# Standard streams that are closed, or slow.
test_streams() {
    "$planbook" seal --key key128 - x <&- 2>err
    judge "standard input closed" 2 "cannot read standard input" $?
    holds "standard input closed: no output" [ ! -e x ]
    "$planbook" seal --key key128 clear x 2>&- >&- <&-
    holds "all standard streams closed" [ $? -eq 0 ]
    same x sealed128
    rm -f x
    cp precious x
    chmod 644 x
    "$planbook" open --force --key key128 sealed128 x 2>&-
    holds "standard error closed" [ $? -eq 0 ]
    same x clear # and no message in it
    rm -f x
    { head -c 20 clear; sleep 0.2; tail -c +21 clear; } | "$planbook" seal --key key128 >out 2>err
    judge "a book in two pieces" 0 "" $?
    same out sealed128
    { cat key256; sleep 0.2; echo; } | "$planbook" seal --key - clear x 2>err
    judge "a key and a byte too much later" \
        1 "the key in standard input is 33 bytes long, not 16, 24 or 32 [check 1]" $?
    "$planbook" labels sealed128 2>err | true
    judge "a reader that leaves early" 0 "" 0
}

# Root may write anywhere and read anything, so these run as another user.
test_permissions() {
    if [ "$(id -u)" -ne 0 ]; then
        as_other=
    elif command -v setpriv >/dev/null; then
        as_other="setpriv --reuid 65534 --regid 65534 --clear-groups"
    else
        skip "files without permission: run by root, and there is no setpriv"
        return
    fi
    cp "$plain" other
    chmod 755 . other
    chmod 644 clear key128
    mkdir -m 555 locked
    (cd locked && $as_other ../other seal --key ../key128 ../clear x 2>../err)
    judge "a folder that may not be written" 2 "cannot make x: Permission denied" $?
    mkdir -m 300 unlisted
    [ -z "$as_other" ] || chown 65534 unlisted
    $as_other ./other show clear unlisted/x 2>err
    status=$?
    chmod 700 unlisted
    judge "a folder that may not be read, and so not be synchronised" 0 "" $status
    chmod 600 key128
    cp clear unreadable
    chmod 0 unreadable
    for line in show page "note --key key128 --counter $counter"; do
        $as_other ./other $line unreadable 2>err
        judge "planbook $line: an input that may not be read" \
            2 "cannot open unreadable: Permission denied" $?
    done
    $as_other ./other seal --key unreadable clear 2>err >out
    judge "a key that may not be read" 2 "cannot open unreadable: Permission denied" $?
    rm -rf locked unlisted unreadable
}

test_terminal() {
    if ! script -qec true /dev/null >/dev/null 2>&1 </dev/null; then
        skip "terminals: no usable script(1)"
        return
    fi
    for line in "seal --key key128 clear" "open --key key128 sealed128 -" "pack plan.csv" \
        "keygen -" "note --key key128 --counter $counter note" \
        "note --key key128 --counter $counter note128 -"; do
        script -qec "'$planbook' $line" /dev/null >err 2>&1 </dev/null
        judge "planbook $line, to a terminal" \
            2 "books, keys and notes may be any bytes, and do not go to a terminal" $?
        holds "planbook $line: only the message" [ "$(wc -l <err)" -eq 1 ]
    done
    script -qec "'$planbook' labels sealed128" /dev/null >err 2>&1 </dev/null
    judge "labels go to a terminal" 0 "41 0 $cipher128" $?
    script -qec "'$planbook' open --csv --key key128 sealed128" /dev/null >err 2>&1 </dev/null
    judge "a plan goes to a terminal" 0 "41,7,2,12,3" $?
    script -qec "'$planbook' page clear" /dev/null >err 2>&1 </dev/null
    judge "a page goes to a terminal" 0 "        41          7 2  12   3" $?
}
