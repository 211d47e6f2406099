#!/bin/sh
# The main job from end to end, on the plan beside this script: a key, a plan sealed in one step,
# its digest compared, its labels, the plan opened again; a note sealed and opened. Then the steps
# one by one, the planting page of a trial, and the book sealed by every way, and with a second book
# by the C program of the README.
# usage: demo.sh COMMAND PROGRAM FOLDER
#        the command planbook, the program seal_book, and a folder for the books
set -eu
[ $# -eq 3 ] || { echo "usage: demo.sh COMMAND PROGRAM FOLDER" >&2; exit 2; }
command=$1
program=$2
books=$3
here=$(dirname "$0")

say() { printf '\n== %s\n' "$*"; }

# Shows a command as one would type it, then runs it.
run() {
    printf '$ planbook'
    printf ' %s' "$@"
    printf '\n'
    "$command" "$@"
}

same() { cmp "$1" "$2" || { echo "demo: $1 and $2 differ" >&2; exit 1; }; }

rm -rf "$books"
mkdir -p "$books"

say "A key for the season, drawn by the system: only you can read it"
run keygen --bits 256 "$books/season.key"

say "The plan (CSV) is checked, and sealed in one step; a second file says that the seedlings of trial 2210 have eight replicates"
run check --trials "$here/trials.csv" "$here/plan.csv"
run seal --key "$books/season.key" --trials "$here/trials.csv" "$here/plan.csv" "$books/sealed.book"

say "Its digest goes to the receiver by another way than the book: by telephone, on paper"
(cd "$books" && echo "$ sha256sum sealed.book >sealed.book.sha256" && sha256sum sealed.book >sealed.book.sha256 && cat sealed.book.sha256)

say "What anyone can read of the sealed book"
run show "$books/sealed.book"

say "The labels: trial, place in the sheet, sealed record"
run labels "$books/sealed.book"

say "The receiver compares the digest before opening: a book may have been changed on its way, and opening does not show that"
(cd "$books" && echo "$ sha256sum -c sealed.book.sha256" && sha256sum -c sealed.book.sha256)
run open --key "$books/season.key" --trials "$books/trials.csv" "$books/sealed.book" "$books/plan.csv"
same "$books/plan.csv" "$here/plan.csv"
echo "The plan is the same, byte for byte."

say "A label read in the field: which plot is it?"
label=$("$command" labels "$books/sealed.book" | sed -n '12s/.* //p')
run find --key "$books/season.key" "$books/sealed.book" "$label"

say "A scorer's note: a key for the notes alone, and a counter block that is drawn for this note and kept beside it"
run keygen "$books/notes.key"
counter=$(od -An -v -tx1 -N12 /dev/urandom | tr -d ' \n')00000000
run note --key "$books/notes.key" --counter "$counter" "$here/note.txt" "$books/note.sealed"
echo "$counter" >"$books/note.counter"

say "The same operation opens it, by another way too"
run note --key "$books/notes.key" --counter "$(cat "$books/note.counter")" --way 3 "$books/note.sealed" "$books/note.txt"
same "$books/note.txt" "$here/note.txt"
echo "The note is the same, byte for byte."

say "Step by step: the clear book by itself. The file of trials has the start blocks too now, so the very same book is made again"
run pack --trials "$books/trials.csv" "$books/plan.csv" "$books/clear.book"
run seal --key "$books/season.key" "$books/clear.book" "$books/again.book"
same "$books/again.book" "$books/sealed.book"
echo "Sealed again, it is the same book, byte for byte."

say "The planting page of trial 58, to be printed and pinned at its bench. Sheets are counted from 0: trial 41 has sheet 0, trial 58 sheet 1"
run page --sheet 1 "$books/clear.book"

say "The clear book is sealed by each of the three ways, under an example key that is no secret"
install -m 600 "$here/example-key-not-secret.hex" "$books/example-key-not-secret.hex"
for way in 1 2 3; do
    run seal --key-hex "$books/example-key-not-secret.hex" --way $way "$books/clear.book" "$books/sealed-$way.book"
done
same "$books/sealed-1.book" "$books/sealed-2.book"
same "$books/sealed-1.book" "$books/sealed-3.book"
echo "The three sealed books are equal byte for byte."

say "A second book of the same plan, with start blocks of its own"
run pack --trials "$here/trials.csv" "$here/plan.csv" "$books/second.book"
run seal --key-hex "$books/example-key-not-secret.hex" "$books/second.book" "$books/sealed-second.book"

say "The C program of the README expands the key once, and seals both books with it"
set -- "$books/clear.book" "$books/program.book" "$books/second.book" "$books/program-second.book"
echo "$ seal_book $*"
"$program" "$@"
same "$books/program.book" "$books/sealed-2.book"
same "$books/program-second.book" "$books/sealed-second.book"
echo "Its two books are those of the command, byte for byte."

say "The first of them is opened again, and the plan shown"
run open --key-hex "$books/example-key-not-secret.hex" "$books/sealed-2.book" "$books/opened.book"
same "$books/opened.book" "$books/clear.book"
echo "The opened book is the clear one, byte for byte."
run show "$books/opened.book"

say "Done. The books are in $books"
