# shellcheck shell=sh disable=SC2086,SC2154
# (command lines are split into arguments; samples and functions are those of tests/cli/run)
#
# Part of tests/cli/run: the header, what is installed, the example and the demo.

test_header() {
    cd "$here" || exit 2
    echo '#include <planbook.h>' >"$work/use.c"
    echo 'int main(void) { return (int)planbook_check(planbook_constants(16, 0, 0)) - 4; }' \
        >>"$work/use.c"
    strict='-pedantic -Wall -Wextra -Werror -Wconversion -Wshadow -Iinclude'
    holds "the header is C99" $cc -std=c99 $strict "$work/use.c" "$PLANBOOK_LIB" -o "$work/use"
    holds "a C program runs" "$work/use"
    if command -v c++ >/dev/null; then
        holds "the header is C++" \
            c++ -std=c++11 -x c++ $strict "$work/use.c" -x none "$PLANBOOK_LIB" -o "$work/use"
        holds "a C++ program runs" "$work/use"
    else
        skip "the header in C++: no c++"
    fi
    cd "$work" || exit 2
}


test_install() {
    cd "$here" || exit 2
    holds "make install" \
        make -s install CLI_DIR="$built" PREFIX=/opt/planbook DESTDIR="$work/stage" >/dev/null
    holds "the staged manual page" [ -f "$work/stage/opt/planbook/share/man/man1/planbook.1" ]
    holds "the staged command runs" "$work/stage/opt/planbook/bin/planbook" --help >/dev/null
    make -s install CLI_DIR="$built" PREFIX="$work/prefix" >/dev/null
    if command -v pkg-config >/dev/null; then
        flags=$(PKG_CONFIG_PATH=$work/prefix/lib/pkgconfig pkg-config --cflags --libs planbook)
    else
        skip "the pkg-config file: no pkg-config"
        flags="-I$work/prefix/include -L$work/prefix/lib -lplanbook"
    fi
    holds "the example is built from what is installed" \
        $cc -Wall -Wextra -Werror examples/seal_book.c $flags -o "$work/seal_book"
    cd "$work" || exit 2
    unhex 000102030405060708090a0b0c0d0e0f >key
    chmod 600 key
    unhex 01000001 0000002900020000$start $record 000000290000000803000103e7000000 >two
    "$planbook" seal --key key clear s
    "$planbook" seal --key key two s2
    ./seal_book clear t two t2 >out 2>err
    judge "the example" 0 "" $?
    printf '%s\n' "t: records sealed: 1" "t2: records sealed: 2" >wanted
    same out wanted
    same t s
    same t2 s2
    cp precious t
    ./seal_book clear t 2>err
    judge "the example, and a file that exists" 2 "t: File exists" $?
    same t precious
    rm -f t t2
    ./seal_book clear t sealed128 t2 >out 2>err
    judge "the example with a sealed book" 1 "sealed128: refused, check 6:" $?
    same t s
    holds "the example makes nothing of a sealed book" [ ! -e t2 ]
    for operands in "" clear "clear t2 two"; do
        ./seal_book $operands 2>err
        judge "the example with the operands '$operands'" \
            2 "usage: seal_book CLEAR SEALED [CLEAR SEALED]..." $?
    done
    ./seal_book missing t2 2>err
    judge "the example without a book" 2 "missing: No such file or directory" $?
    ./seal_book /dev/zero t2 2>err
    judge "the example with a book that is too long" 1 "/dev/zero: refused, check 5:" $?
    ./seal_book clear missing/t2 2>err
    judge "the example without a folder" 2 "missing/t2: No such file or directory" $?
    rm -f s s2 t two key
}

test_demo() {
    cd "$here" || exit 2
    holds "the demo" make -s demo CLI_DIR="$built" >"$work/demo.txt" 2>&1
    holds "the demo's program seals two books" \
        grep -q "Its two books are those of the command" "$work/demo.txt"
    holds "the demo opens its book" grep -q "The opened book is the clear one" "$work/demo.txt"
    holds "the demo goes from a plan to a plan" \
        grep -q "The plan is the same, byte for byte" "$work/demo.txt"
    holds "the demo prints a page" grep -qx "        58          7 1   4   1" "$work/demo.txt"
    holds "the demo seals a note and opens it" \
        grep -q "The note is the same, byte for byte" "$work/demo.txt"
    holds "the demo compares digests" grep -q "sealed.book: OK" "$work/demo.txt"
    holds "the demo shows the spare plant" \
        grep -qx "        41     8        105         1      reserve" "$work/demo.txt"
    holds "the demo has no warning" [ -z "$(grep warning "$work/demo.txt")" ]
    cd "$work" || exit 2
}
