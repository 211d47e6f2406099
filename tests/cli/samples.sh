# shellcheck shell=sh disable=SC2034,SC2154
# (the parts use these values, and eval assigns some)
#
# Part of tests/cli/run: books, notes and keys, made by hand.

# One record (trial 41, entry 7, replicate 2, row 12, column 3), with the start block chosen so that
# record ^ start block is the plaintext 000102..0f of the CLEFIA specification. The sealed record is
# then the ciphertext printed there.
record=000000290000000702000c0003000000
start=0001022a040506000a09060b0f0d0e0f
entry=0000002900010000$start
key128=ffeeddccbbaa99887766554433221100
key192=${key128}f0e0d0c0b0a09080
key256=${key192}7060504030201000
cipher128=de2bf2fd9b74aacdf1298555459494fd
cipher192=e2482f649f028dc480dda184fde181ad
cipher256=a1397814289de80c10da46d1fa48b38a

# A note, and what it is when sealed from that plaintext as its counter block: the first 16 bytes
# are its text ^ the ciphertexts above. The others were worked out by a program in Python that was
# written for this, from RFC 6114 and NIST SP 800-38A, and that gives the expanded keys and
# ciphertexts of the CLEFIA specification.
note_text='Trial 41, plot 7: rust on the lower leaves, score 3.'
counter=000102030405060708090a0b0c0d0e0f
note128=8a599b9cf7549efcdd09f5392ae0b4ca375b527007656211867c293e1a2dc887
note128=${note128}e0ff9ab1f7ecadada72a1f23334d3eed5b8cda0c4b
note192=b63a4605f322b9f5acfdd1e89295a19ad4e3d47ae0b00d3ec449d80f0c57bdd7
note192=${note192}1d526c13b3f03a7a1207bc9bcaeaa8c6ac5149d6ad
note256=f54b117544bddc3d3cfa36bd953c93bd70c07a9bbe10bbb46ca98f92f9630222
note256=${note256}4ddaf88f0e4f04ba436168ea91cd9e018108d6473a

make_samples() {
    cd "$work" || exit 2
    umask 077 # a key that others may read draws a warning
    : >in
    unhex 01000001 $entry $record >clear
    for bits in 128 192 256; do
        eval "key=\$key$bits cipher=\$cipher$bits note=\$note$bits"
        unhex "$key" >key$bits
        echo "$key" >hex$bits
        unhex 02000001 $entry "$cipher" >sealed$bits
        unhex "$note" >note$bits
    done
    printf 'trial,entry,replicate,row,column\n41,7,2,12,3\n' >plan.csv
    printf 'trial,start_block,replicates\n41,%s,0\n' $start >trials.csv
    echo "$note_text" >note
    : >empty
    echo precious >precious
    mkdir folder
    umask 022
}
