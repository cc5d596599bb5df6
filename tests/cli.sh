#!/bin/sh
# Runs of the program whose exit status is not 0, or that no stored run of the gate can show: each with its status, its
# standard output and its standard error. Works on the binary that the gate leaves in crates/dmljob/out; `check` calls
# it. One run goes by `./dmljob`, which proves the program anew where a source is newer than that binary.
cd "$(dirname "$0")/.." || exit 2
dmljob=crates/dmljob/out/dmljob
if [ ! -x "$dmljob" ]; then
    echo "cli: $dmljob is missing: run rt ci first" >&2
    exit 1
fi
work=$(mktemp -d) || exit 2
trap 'rm -rf "$work"' EXIT
runs=0
failed=0

complain() {
    printf 'cli: %s\n' "$*" >&2
    failed=1
}

# outcome STATUS OUT ERR [WORD..]: on the input in the file `in`; OUT and ERR are formats of printf
outcome() {
    status=$1
    printf "$2" >"$work/wanted_out"
    printf "$3" >"$work/wanted_err"
    shift 3
    "$dmljob" "$@" <"$work/in" >"$work/out" 2>"$work/err"
    got=$?
    runs=$((runs + 1))
    [ "$got" = "$status" ] || complain "dmljob $*: status $got, not $status"
    cmp "$work/out" "$work/wanted_out" >&2 || complain "dmljob $*: the standard output"
    cmp "$work/err" "$work/wanted_err" >&2 || complain "dmljob $*: the standard error"
}

# script FORMAT STATUS OUT ERR: a script by `dmljob run`, at the defaults and at other chunks and workers, all alike
script() {
    printf "$1" >"$work/in"
    outcome "$2" "$3" "$4" run
    for chunk in 8 16 32 4096 1048576; do
        for workers in 1 2 16; do
            outcome "$2" "$3" "$4" run --chunk "$chunk" --workers "$workers"
        done
    done
}

# fault FORMAT LINE TEXT: a script with a fault, of which nothing is written
fault() {
    script "$1" 2 '' "dmljob: line $2: $3\n"
}

# filled BYTES: a comment of that many bytes
filled() {
    dd if=/dev/zero bs="$1" count=1 2>/dev/null | tr '\0' '#'
}

# ---- scripts that are carried out

script 'image 2\npage 0\nfill 0x0807060504030201 4090 12\nshow 4088 10\n' 0 \
    'job 0 status 83 result 0 completed 6 fault 4096 delta 0\nshow 4088 0000010203040506----\n' ''
script 'image 1\n' 0 '' ''
script "image 1\nraw $(printf '%0128d' 0)\n" 0 'job 0 status 01 result 0 completed 0 fault 0 delta 0\n' ''
script 'image 1\npage 0\nfill 0 0 1048577\nnoop flags 0x10\nfill 0 0xfffffffffffffff8 9\nfill 0 0xfffffffffffffff8 8\n' 0 \
    'job 0 status 13 result 0 completed 0 fault 0 delta 0
job 1 status 11 result 0 completed 0 fault 0 delta 0
job 2 status 7d result 0 completed 0 fault 0 delta 0
job 3 status 83 result 0 completed 0 fault 18446744073709551608 delta 0\n' ''
script 'image 1\npage 0 0102030405060708010203\ncompare 0 8 3 check 0\ncompare 1 8 3 check 0 flags 2
compare-pattern 0 0x0807060504030201 11 check 0\ncompare-pattern 0 0x0807060504030201 12\n' 0 \
    'job 0 status 01 result 0 completed 3 fault 0 delta 0
job 1 status 02 result 1 completed 0 fault 0 delta 0
job 2 status 01 result 0 completed 11 fault 0 delta 0
job 3 status 01 result 1 completed 11 fault 0 delta 0\n' ''
script "image 1\\npage 0\\nbatch\\nfill 1 0 8\\nraw 0000000000000010$(printf '%0112d' 0)\\nfill 2 8 8\\nend\\nbatch\\nend\\n" 0 \
    'job 0 status 01 result 0 completed 8 fault 0 delta 0
job 1 status 10 result 0 completed 0 fault 0 delta 0
job 2 status 01 result 0 completed 8 fault 0 delta 0
batch status 05 completed 3\nbatch status 01 completed 0\n' ''
# No page of the largest image is present.
script 'image 4096\nmove 0 8 16\nfill 1 0 8\ncompare 0 8 8\ncreate 0 64 8 128 10\napply 0 10 256 8
dualcast 0 4096 8192 8\nnoop\nshow 16777214 2\n' 0 \
    'job 0 status 03 result 1 completed 0 fault 15 delta 0
job 1 status 83 result 0 completed 0 fault 0 delta 0
job 2 status 03 result 0 completed 0 fault 0 delta 0
job 3 status 03 result 0 completed 0 fault 0 delta 0
job 4 status 03 result 0 completed 0 fault 0 delta 0
job 5 status 03 result 0 completed 0 fault 0 delta 0
job 6 status 01 result 0 completed 0 fault 0 delta 0
show 16777214 ----\n' ''
for example in examples/*.script; do
    cp "$example" "$work/in"
    cp "${example%.script}.answer" "$work/answer" || failed=1
    outcome 0 "$(cat "$work/answer")\n" '' run
done
./dmljob run <examples/fill.script >"$work/out" 2>"$work/err" || complain "./dmljob run: status $?"
cmp "$work/out" examples/fill.answer >&2 || complain "./dmljob run: the standard output"
[ ! -s "$work/err" ] || complain "./dmljob run: says $(cat "$work/err")"

# ---- the script's faults

fault '' 1 'the script must begin with an image line'
fault '# nothing\n\n' 3 'the script must begin with an image line'
fault 'noop\n' 1 'the script must begin with an image line'
fault 'image 2\npoke 0 01\n' 2 'out of range'
fault 'image 0\n' 1 'out of range'
fault 'image 4097\n' 1 'out of range'
fault 'image 1\npage 1\n' 2 'out of range'
fault 'image 1\nshow 0 0\n' 2 'out of range'
fault 'image 1\nshow 0 65537\n' 2 'out of range'
fault 'image 1\nimage 1\n' 2 'a second image line'
fault 'image 1\n\nfrob\n' 3 'unknown word'
fault 'image 1\nnoop 1\n' 2 'wrong number or kind of words'
fault 'image 1\nfill 1 2\n' 2 'wrong number or kind of words'
fault 'image 1\nfill 1 2 3 check 0\n' 2 'wrong number or kind of words'
fault 'image 1\ncompare 1 2 3 flags 2 check 0\n' 2 'wrong number or kind of words'
fault 'image 1\ncompare 1 2 3 check 256\n' 2 'not a number of the right size'
fault 'image 1\nfill 1 2 0x100000000\n' 2 'not a number of the right size'
fault 'image 1\nfill 1 0X2 3\n' 2 'not a number of the right size'
fault 'image 1\npage 0 0\n' 2 'not hexadecimal text of the right length'
fault 'image 1\nraw 00\n' 2 'not hexadecimal text of the right length'
fault "image 1\\nraw $(printf '%0126d' 0)\\n" 2 'not hexadecimal text of the right length'
fault 'image 1\nbatch\nnoop\n' 2 'the batch has no end'
fault 'image 1\nend\n' 2 'no batch is open'
fault 'image 1\nbatch\nshow 0 1\nend\n' 3 'this line may not stand in a batch'
fault "image 1\\nbatch\\n$(for i in 1 2 3 4 5 6 7 8; do printf '%0128d' 0 | sed 's/0/noop\\n/g'; done)noop\\nend\\n" 1027 'the batch has too many jobs'
fault 'image 1\nnoop \001\n' 2 'the line is not ASCII text'
{ printf 'image 1\nnoop '; filled 16380 | tr '#' ' '; printf '\n'; } >"$work/in"
outcome 2 '' 'dmljob: line 2: the line is too long\n' run

# The longest script is read, and one byte more is not.
filled 4194304 >"$work/in"
outcome 2 '' 'dmljob: line 2: the script must begin with an image line\n' run
filled 4194305 >"$work/in"
outcome 2 '' 'dmljob: the script is too long\n' run

# ---- descriptors

: >"$work/in"
zeros=00000000000000000000000000000000000000000000000000000000
outcome 0 'opcode 03 flags 00000c source 4096 target 8192 size 100 extra 0 delta 0 expected 0\ncheck accepted need 100\n' '' \
    decode "000000000c00000300000000000000000010000000000000002000000000000064000000$zeros"
create=0000000080000007000000000000000000000000000000004000000000000000
create=${create}2000000000000000800000000000000014000000000000000200000000000000
outcome 0 'opcode 07 flags 000080 source 0 target 64 size 32 extra 128 delta 20 expected 2\ncheck accepted need 40\n' '' \
    decode "$create"
outcome 0 'opcode 10 flags 000000 source 0 target 0 size 0 extra 0 delta 0 expected 0\ncheck refused 10\n' '' \
    decode "0000000000000010${zeros}${zeros}"
outcome 0 'opcode 04 flags 000000 source 18364758544493064720 target 43690 size 255 extra 0 delta 0 expected 0\ncheck accepted need 0\n' '' \
    decode "000000000000000400000000000000001032547698BADCFEaaAA000000000000Ff000000$zeros"
# one WANTED SEGMENT..: the two lines on a descriptor that is given in segments
one() {
    wanted=$1
    shift
    outcome 0 "$wanted" '' decode "$(printf '%s' "$@")"
}

# A job of each other operation. Bytes 4 to 7 are flags and opcode, source is at 16, target at 24, size at 32.
one 'opcode 00 flags 000000 source 0 target 0 size 7 extra 0 delta 0 expected 0\ncheck accepted need 0\n' \
    00000000 00000000 0000000000000000 0000000000000000 0000000000000000 07000000 00000000 \
    000000000000000000000000000000000000000000000000
one 'opcode 05 flags 000080 source 4096 target 8192 size 64 extra 0 delta 0 expected 1\ncheck accepted need 0\n' \
    00000000 80000005 0000000000000000 0010000000000000 0020000000000000 40000000 00000000 \
    010000000000000000000000000000000000000000000000
one 'opcode 06 flags 000000 source 4096 target 72623859790382856 size 8 extra 0 delta 0 expected 2\ncheck accepted need 0\n' \
    00000000 00000006 0000000000000000 0010000000000000 0807060504030201 08000000 00000000 \
    020000000000000000000000000000000000000000000000
one 'opcode 08 flags 000000 source 4096 target 8192 size 32 extra 0 delta 20 expected 0\ncheck accepted need 20\n' \
    00000000 00000008 0000000000000000 0010000000000000 0020000000000000 20000000 00000000 \
    140000000000000000000000000000000000000000000000
one 'opcode 09 flags 000000 source 4096 target 8192 size 16 extra 12288 delta 0 expected 0\ncheck accepted need 16\n' \
    00000000 00000009 0000000000000000 0010000000000000 0020000000000000 10000000 00000000 \
    003000000000000000000000000000000000000000000000
outcome 3 '' 'dmljob: not 64 bytes of hex\n' decode ''
outcome 3 '' 'dmljob: not 64 bytes of hex\n' decode 00
outcome 3 '' 'dmljob: not 64 bytes of hex\n' decode "000000000000001${zeros}${zeros}"
outcome 3 '' 'dmljob: not 64 bytes of hex\n' decode "0000000000000010${zeros}${zeros}00"
outcome 3 '' 'dmljob: not 64 bytes of hex\n' decode "g000000000000010${zeros}${zeros}"
outcome 3 '' 'dmljob: not 64 bytes of hex\n' decode -- -x

# ---- settings and words are judged before the input is read; a folder as input cannot be read

# read_none STATUS ERR [WORD..]
read_none() {
    status=$1
    printf "$2" >"$work/wanted_err"
    shift 2
    "$dmljob" "$@" </ >"$work/out" 2>"$work/err"
    got=$?
    runs=$((runs + 1))
    [ "$got" = "$status" ] || complain "dmljob $* </: status $got, not $status"
    [ ! -s "$work/out" ] || complain "dmljob $* </: writes on the standard output"
    cmp "$work/err" "$work/wanted_err" >&2 || complain "dmljob $* </: the standard error"
}

read_none 4 'dmljob: cannot read the script\n' run
for words in '--chunk 12' '--chunk 0' '--chunk 1048584' '--workers 0' '--workers 17' '--workers=-0' '--arena 16777217'; do
    read_none 3 'dmljob: the settings are out of range\n' run $words
done
read_none 3 'dmljob: an argument is not UTF-8 text\n' run "$(printf '\377')"
for settings in '--chunk 8' '--chunk 1048576' '--workers 1' '--workers=16' '--workers +8' '--arena 0' '--arena 16777216'; do
    read_none 4 'dmljob: cannot read the script\n' run $settings
done

# ---- words that clap refuses, with a text of its own

# words WORD..: status 3, no output, some text
words() {
    "$dmljob" "$@" </ >"$work/out" 2>"$work/err"
    got=$?
    runs=$((runs + 1))
    [ "$got" = 3 ] || complain "dmljob $*: status $got, not 3"
    [ ! -s "$work/out" ] || complain "dmljob $*: writes on the standard output"
    [ -s "$work/err" ] || complain "dmljob $*: says nothing"
    ! grep -q '^dmljob: ' "$work/err" || complain "dmljob $*: is refused for more than its words"
}

words
words nope
words --version
words run extra
words run --workers x
words run --chunk 12 --workers x
words run --workers 3 --workers 3
words run --chunk
words decode
words decode 00 11

# help WORD..: status 0, its text on the standard output
help() {
    "$dmljob" "$@" </ >"$work/out" 2>"$work/err"
    got=$?
    runs=$((runs + 1))
    [ "$got" = 0 ] || complain "dmljob $*: status $got, not 0"
    grep -q '^Usage: dmljob' "$work/out" || complain "dmljob $*: no usage on the standard output"
    [ ! -s "$work/err" ] || complain "dmljob $*: says $(cat "$work/err")"
}

# shows WORDS TEXT..: a help that has each of these texts in one of its lines
shows() {
    words=$1
    shift
    help $words
    for text in "$@"; do
        grep -qF -e "$text" "$work/out" || complain "dmljob $words: does not show: $text"
    done
}

# typed ANSWER WORD..: what a help says to type is typed, on the input in the file `in`
typed() {
    answer=$1
    shift
    outcome 0 "$answer\n" '' "$@"
}

for words in help --help -h; do
    shows "$words" 'Carries out memory jobs of a data mover in software' 'run     Carry out the script on the standard input' \
        'decode  Show the fields of a descriptor' 'Exit status: 0 done, 2 the script has a fault, 3 the command line is refused'
    sed '1,/^To try it,/d; /^and type:$/,$d; s/^  //' "$work/out" >"$work/in"
    typed "$(cat examples/fill.answer)" $(sed -n '/^and type:$/,$s/^  dmljob \(.*\) < .*/\1/p' "$work/out")
done
for words in 'run --help' 'run -h' 'help run'; do
    shows "$words" "The most workers for a list of jobs, 1 to 16; successive jobs of a script are a list, and so is each batch; no answer depends on it [default: 4]" \
        'How many bytes one task of a list covers, a multiple of 8 from 8 to 1048576; no answer depends on it [default: 4096]' \
        'How many bytes the staging arena has, 0 to 16777216 [default: 1048576]' 'fill PATTERN DST N ' \
        'compare SRC SRC2 N ' 'apply DELTA SIZE DST N ' 'batch ' 'end ' 'show ADDR LEN '
    typed "$(cat examples/fill.answer)" $(sed -n 's/^  dmljob \(run .*\) < .*/\1/p' "$work/out")
done
for words in 'decode --help' 'decode -h' 'help decode'; do
    shows "$words" 'Usage: dmljob decode <HEX>' '<HEX>  The 64 bytes of the descriptor, as 128 hexadecimal digits in either case'
    typed "$(sed '1,/^prints$/d; s/^  //' "$work/out")" $(sed -n 's/^  dmljob \(decode .*\)/\1/p' "$work/out")
done

# ---- a standard output that takes nothing

# full STATUS WORD..: nothing can be written
full() {
    "$dmljob" "$@" <examples/fill.script >/dev/full 2>"$work/err"
    got=$?
    runs=$((runs + 1))
    [ "$got" = 4 ] || complain "dmljob $* >/dev/full: status $got, not 4"
    [ "$(cat "$work/err")" = 'dmljob: cannot write the answer' ] ||
        complain "dmljob $* >/dev/full: says $(cat "$work/err")"
}

if [ -c /dev/full ]; then
    full run
    full help
    full decode "0000000000000010${zeros}${zeros}"
else
    complain 'there is no /dev/full here'
fi

printf 'cli: %s runs of the program\n' "$runs"
exit "$failed"
