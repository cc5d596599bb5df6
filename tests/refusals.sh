#!/bin/sh
# Refuses each growth of memory in turn, of the program and of each library's tests named refused_*, looks at what is
# answered, and compares how many growths there were with the table of docs/RELIABILITY.md. Works on the binaries that
# the gate leaves in crates/NAME/out; `check` calls it. Needs the GNU C library and a C compiler (CC, or cc). With the
# word `write` the numbers in the table are written anew instead (look at each change before you keep it).
#
# The Nth growth is refused by tests/refuse.c, for N from 1 until a run meets no refusal. Then
# - the program ends with status 4 and `dmljob: out of memory`, having written nothing but the beginning of its whole
#   answer; or it does without, and answers as with ample memory;
# - a test passes: it takes the call's right answer, or want of memory with nothing changed.
#
# Where a test has to make something before its call, a test set_up_of_NAME beside refused_NAME makes it alone, or that
# of another test that makes the same. The growths of that run come first in refused_NAME too; they are neither refused
# nor counted, so that each refusal meets the call. Each test has a set-up, or stands in the list of those that need
# none, since their first growth is the call's.
#
# A row of the table names the calls that it is about (the first cell), a test or a run of the program by a key, and
# behind it how many growths there are: a number, or `A to B` where they depend on how workers share their tasks. Each
# test and each run has a row, and each exported call that takes an allocator or answers an error one with a test.
cd "$(dirname "$0")/.." || exit 2
page=docs/RELIABILITY.md
work=$(mktemp -d) || exit 2
trap 'rm -rf "$work"' EXIT
failed=0
: >"$work/counts"

complain() {
    printf 'refusals: %s\n' "$*" >&2
    failed=1
}

"${CC:-cc}" -O2 -Wall -Wextra -Werror -shared -fPIC -o "$work/refuse.so" tests/refuse.c || exit 1

# refused N BINARY [WORD..]: runs it with its Nth growth refused; the file `log` is there if it came
refused() {
    number=$1
    shift
    rm -f "$work/log"
    REFUSE=$number REFUSE_LOG=$work/log LD_PRELOAD=$work/refuse.so "$@"
}

# is_prefix A B: the file A is a beginning of the file B
is_prefix() {
    [ "$(wc -c <"$1")" -le "$(wc -c <"$2")" ] && [ -z "$(cmp "$1" "$2" 2>/dev/null)" ]
}

is_plain() { # STATUS: the last run is as the plain run was
    [ "$1" = "$plain" ] && cmp -s "$work/out" "$work/answer" && cmp -s "$work/err" "$work/said"
}

# The tests whose calls take no memory. All others that are found take some.
take_none='dml_image:refused_second_bring dml_image:refused_bring_over_segments dml_image:refused_evict
dml_engine:refused_submit dml_engine:refused_second_bring'

# The tests that make nothing before their call.
make_nothing='dml_arena:refused_new dml_image:refused_new dml_image:refused_take dml_grammar:refused_read_script
dml_script:refused_job_text dml_script:refused_out_text_of_a_job dml_script:refused_out_text_of_a_batch
dml_script:refused_push_byte dml_script:refused_run_script dml_command:refused_command_of
dml_command:refused_parse_words dmljob:refused_description dml_engine:refused_run_list_over
dml_engine:refused_run_batch_over dml_seats:refused_bell'

# The tests that make before their call what another one makes: TEST=SET_UP.
share_set_up='dml_core:refused_made_rows_by_steps=made_rows
dml_effect:refused_lists_over_segments=submit_over_segments dml_engine:refused_bring=submit
dml_engine:refused_second_bring=submit dml_engine:refused_list_alone=submit dml_engine:refused_batch_alone=submit
dml_engine:refused_submit_into=submit_on_workers dml_engine:refused_submit_list=submit_on_workers
dml_engine:refused_submit_batch=submit_on_workers dml_engine:refused_waves_of_a_batch=waves
dml_engine:refused_later_growths_of_a_batch=later_growths
dml_engine:refused_run_batch_over_on_workers=run_list_over_on_workers dml_pool:refused_run_wave_of_three=run_wave
dml_wave:refused_carry_out_wave_of_three=carry_out_wave dml_command:refused_read_request=parse_arguments'

# The tests of lists and batches that take no want of memory for an answer. The last growth of their set-up is the list
# of records, which in their run is the first growth of the call: where it is refused too, they have to fail by want of
# memory. So that growth and no other is answered by it.
want_records='dml_engine:refused_later_growths dml_engine:refused_later_growths_of_a_batch
dml_engine:refused_later_growths_of_a_fenced_batch dml_engine:refused_list_by_cells
dml_engine:refused_conflict_chain'

# The tests of calls that end at each refusal, and do without none: they say `ended at N` then, which is the step that
# wanted memory.
end_each='dml_core:refused_row dml_core:refused_longest_row dml_core:refused_longer_row dml_core:refused_cut_row'

# The tests of such calls that make their inputs, and whose set-up says which steps want memory.
say_ends='dml_core:refused_made_rows'

# The tests that make the calls of another one in parts: each step at which that one ends is one at which they end.
in_parts='dml_core:refused_made_rows_by_steps'

# repeated N WORD: the word, so many times
repeated() {
    printf "%$1s" '' | sed "s/ / $2/g"
}

# ends_of KEY: the steps at which such a test ends: those of a row whose lists grow, and then its last fetch, whose plan
# takes several growths. A submit in front of a fetch that is not allowed is taken back before, and grows its list again
# behind the plan. The list of a client that submits one job after another from step 1 on holds 4 jobs at first,
# and then twice as many each time. A row of 2,048 steps has one plan; a fetch behind it has its own, for whose places
# there is room then.
ends_of() {
    doubling='0 1 5 9 17 33 65 129 257 513 1025'
    case $1 in
        dml_core:refused_row) echo 0 1 5 6 $(repeated 15 7) ;;
        dml_core:refused_longest_row) echo $doubling $(repeated 10 2047) ;;
        dml_core:refused_longer_row) echo $doubling $(repeated 10 2047) $(repeated 9 2048) ;;
        dml_core:refused_cut_row) echo 0 2 $(repeated 10 1) 2 ;;
        *) echo none ;;
    esac
}

# is_in NAME LIST
is_in() {
    case " $(echo $2) " in
        *" $1 "*) return 0 ;;
        *) return 1 ;;
    esac
}

# counted KEY GROWTHS: says and keeps how many growths were refused; none only of a call that takes no memory
counted() {
    printf '%s %s\n' "$1" "$2" >>"$work/counts"
    if is_in "$1" "$take_none"; then
        [ "$2" = 0 ] || complain "$1: $2 growths were refused, of a call that takes no memory"
        printf 'refusals: %s: none possible: the call takes no memory\n' "$1"
    else
        [ "$2" -gt 0 ] || complain "$1: no growth was refused"
        printf 'refusals: %s: %s growths refused in turn\n' "$1" "$2"
    fi
}

# program NAME INPUT [WORD..]: the program on that input
program() {
    binary=crates/dmljob/out/dmljob
    key=program:$1
    input=$2
    shift 2
    if [ ! -x "$binary" ]; then
        complain "$binary is missing: run rt ci first"
        return
    fi
    "$binary" "$@" <"$input" >"$work/answer" 2>"$work/said"
    plain=$?
    number=1
    while :; do
        refused "$number" "$binary" "$@" <"$input" >"$work/out" 2>"$work/err"
        status=$?
        [ -f "$work/log" ] || break
        if ! is_plain "$status"; then
            [ "$status" = 4 ] || complain "$key: growth $number: status $status"
            [ "$(cat "$work/err")" = 'dmljob: out of memory' ] ||
                complain "$key: growth $number: says $(cat "$work/err")"
            is_prefix "$work/out" "$work/answer" ||
                complain "$key: growth $number: writes what is no part of the answer"
        fi
        number=$((number + 1))
    done
    is_plain "$status" || complain "$key: differs where no growth is refused"
    counted "$key" "$((number - 1))"
}

# set_up_of KEY TEST: the name of the test that makes alone what this one makes before its call
set_up_of() {
    for pair in $share_set_up; do
        if [ "${pair%=*}" = "$1" ]; then
            sed -n "s/^\([a-z_:]*::set_up_of_${pair#*=}\): test$/\1/p" "$work/list"
            return
        fi
    done
    printf '%s' "${2%refused_*}set_up_of_${2##*refused_}"
}

# has_set_up KEY TEST: whether there is such a test; one of the two, that or an entry of the list, has to be there, and
# none of its own where it shares another one's
has_set_up() {
    own=${2%refused_*}set_up_of_${2##*refused_}
    [ "$(set_up_of "$1" "$2")" = "$own" ] || ! grep -qxF "$own: test" "$work/list" ||
        complain "$1: has a set-up, and is said to share another one's"
    listed=0
    is_in "$1" "$make_nothing" && listed=1
    if grep -qxF "$(set_up_of "$1" "$2"): test" "$work/list"; then
        [ "$listed" = 0 ] || complain "$1: has a set-up, and is listed as one that needs none"
        return 0
    fi
    [ "$listed" = 1 ] || complain "$1: has no set-up, and is not listed as one that needs none"
    return 1
}

# comes N BINARY TEST: whether the test asks for an Nth growth
comes() {
    refused "$@" >/dev/null 2>&1 </dev/null
    [ -f "$work/log" ]
}

# growths BINARY TEST: how many growths a test takes
growths() {
    taken=0
    none=1
    while comes "$none" "$@"; do
        taken=$none
        none=$((none * 2))
    done
    while [ "$((taken + 1))" -lt "$none" ]; do
        middle=$(((taken + none) / 2))
        if comes "$middle" "$@"; then taken=$middle; else none=$middle; fi
    done
    echo "$taken"
}

# wants_records KEY BINARY TEST N: with its Nth growth refused, the list of records, the test fails by want of memory
wants_records() {
    refused "$4" "$2" "$3" >"$work/out" 2>&1 </dev/null
    status=$?
    [ -f "$work/log" ] || complain "$1: growth $4, the list of records, did not come"
    [ "$status" != 0 ] && grep -q 'NoMemory' "$work/out" ||
        complain "$1: the list of records is refused, and that is not answered: status $status: $(cat "$work/out")"
    printf 'refusals: %s: of the list of records alone the refusal is answered\n' "$1"
}

# says_ends KEY BINARY TEST: it ended at the steps that its set-up says and at no other, in that order: once where it
# says `grows at N`, once or more where it says `plans at N`
says_ends() {
    "$2" "$(set_up_of "$1" "$3")" </dev/null >"$work/wanted"
    awk '
        NR == FNR { end[++ends] = $1; next }
        /^(grows|plans) at / { steps++; if (end[++at] != $3) wrong = 1 }
        /^plans at / { while (at < ends && end[at + 1] == $3) at++ }
        END { exit wrong || !steps || at != ends }
    ' "$work/ends" "$work/wanted" || complain "$1: ends at other steps than its set-up says"
}

# library NAME: each of its tests named refused_*; those of a crate NAME_tests are keyed as NAME's
library() {
    grep -rq '#\[test\]' "crates/$1/src" || return 0
    binary=crates/$1/out/$1_tests
    if [ ! -x "$binary" ]; then
        complain "$binary is missing: run rt ci first"
        return
    fi
    "$binary" --list >"$work/list" || complain "$binary --list fails"
    grep -q 'refused_' "$work/list" || printf 'refusals: %s: no test is named refused_*\n' "$1"
    for test in $(sed -n 's/^\(\([A-Za-z0-9_]*::\)*refused_[A-Za-z0-9_]*\): test$/\1/p' "$work/list"); do
        key=${1%_tests}:${test##*:}
        before=0
        if has_set_up "$key" "$test"; then
            before=$(growths "$binary" "$(set_up_of "$key" "$test")")
        fi
        number=$((before + 1))
        : >"$work/ends"
        while :; do
            refused "$number" "$binary" "$test" >"$work/out" 2>&1 </dev/null
            status=$?
            if [ "$status" != 0 ]; then
                complain "$key: growth $number: status $status: $(cat "$work/out")"
            fi
            [ -f "$work/log" ] || break
            ! is_in "$key" "$end_each $say_ends $in_parts" || grep -q '^ended ' "$work/out" ||
                complain "$key: growth $number: the call does without it"
            sed -n 's/^ended at //p' "$work/out" >>"$work/ends"
            number=$((number + 1))
        done
        ! is_in "$key" "$end_each" || [ "$(echo $(cat "$work/ends"))" = "$(ends_of "$key")" ] ||
            complain "$key: ends at steps $(echo $(cat "$work/ends")), and not at $(ends_of "$key")"
        ! is_in "$key" "$say_ends" || says_ends "$key" "$binary" "$test"
        ! is_in "$key" "$say_ends $in_parts" || sort -u "$work/ends" >"$work/ends_${test##*:}"
        counted "$key" "$((number - 1 - before))"
        ! is_in "$key" "$want_records" || wants_records "$key" "$binary" "$test" "$before"
    done
}

# ---- rows of the core under a limit on all memory

# made NAME WAY: how many growths `limited` takes for this schedule and this way
made() {
    (export LIMITED="$*"; growths "$core_tests" tests::limits::limited)
}

# under BYTES BEHIND NAME WAY: takes a schedule of the core's in this way with so many bytes left behind those of its
# making, whose growths are $before; none of the first BEHIND growths is refused. What it says stands in the file `out`,
# and a line for each refusal in the file `log`.
under() {
    left=$1
    behind=$2
    shift 2
    : >"$work/log"
    LIMITED="$*" REFUSE_ABOVE=$left REFUSE_FROM=$((before + 1)) REFUSE_BEHIND=$behind REFUSE_LOG=$work/log \
        LD_PRELOAD=$work/refuse.so "$core_tests" tests::limits::limited >"$work/out" 2>&1 </dev/null ||
        complain "limited $*: with $left bytes: fails: $(cat "$work/out")"
}

# said WORD: the number behind that word
said() {
    sed -n "s/.*$1 \([0-9]*\).*/\1/p" "$work/out"
}

# fetch_behind: how the fetch by itself went
fetch_behind() {
    grep '^then fetched ' "$work/out"
}

# is_end_of_row NAME BYTES STEP: whether a step that wants memory may be the end of the one call, which made no plan
# since its row began: it is the one at which calls of one step each end that begin there, or one behind that, whose
# list grows
is_end_of_row() {
    LIMITED="$1 row $3" "$core_tests" tests::limits::limited >"$work/out" </dev/null
    begin=$(said 'row from')
    grows=$(said grows)
    under "$2" "$(made "$1" only_afresh "$begin")" "$1" alone "$begin"
    [ "$3" = "$(said 'ended at')" ] || { [ "$3" -gt "$(said 'ended at')" ] && [ "$grows" = 1 ]; }
}

# limited NAME BYTES..: takes steps by one call, and by calls of one step each, with so many bytes left.
#
# Both end at the same step, and a fetch by itself then goes alike; or the one call comes further, past a row whose
# plan fits, as the others hold the plan of each fetch beside the next one's: then it ends behind all steps, or at the
# step at which calls of one step each end that begin where its row does, or at one behind that, whose list grows. The
# step at which it ends is not taken when it is tried again alone, and a fetch by itself goes from the world that it
# hands back as from one that took as many steps with ample memory. Counted are the calls that came further, and those
# that met a second refusal before they ended, behind that of a list of more than a million bytes, or behind another.
limited() {
    name=$1
    shift
    before=$(made "$name" only_made)
    behind_list=0
    behind_other=0
    further=0
    ends=
    for bytes in "$@"; do
        under "$bytes" 0 "$name" alone
        alone=$(said 'ended at')
        fetch_of_others=$(fetch_behind)
        under "$bytes" 0 "$name" by_one_call
        whole=$(said 'ended at')
        fetch=$(fetch_behind)
        ends="$ends $whole"
        more=$(said 'then took')
        first=$(sed -n '1s/.* //p' "$work/log")
        refusals=$(($(wc -l <"$work/log") - 1 + ${more:-1} - $(said short)))
        what="limited $name, with $bytes bytes: one call ends at $whole, the others at $alone"
        [ "${more:-0}" = 0 ] || complain "$what: then $more steps"
        [ -n "$more" ] || [ "$refusals" = 0 ] || complain "$what: a refusal is not answered"
        under "$bytes" "$(made "$name" only_afresh "$whole")" "$name" afresh "$whole"
        [ "$(fetch_behind)" = "$fetch" ] || complain "$what: then $fetch, afresh $(fetch_behind)"
        if [ "$whole" = "$alone" ]; then
            [ "$fetch" = "$fetch_of_others" ] || complain "$what: then $fetch, theirs $fetch_of_others"
        else
            further=$((further + 1))
            [ "$whole" -gt "$alone" ] || complain "$what"
            [ -z "$more" ] || is_end_of_row "$name" "$bytes" "$whole" || complain "$what, which is no end of its row"
        fi
        if [ "$refusals" -gt 1 ] && [ "$first" -gt 1000000 ]; then
            behind_list=$((behind_list + 1))
        elif [ "$refusals" -gt 1 ]; then
            behind_other=$((behind_other + 1))
        fi
    done
    printf 'refusals: dml_core, limited %s: %s limits, %s further, %s with two refusals and more, %s behind a large list\n' \
        "$name" "$#" "$further" "$((behind_list + behind_other))" "$behind_list"
}

# ended FIRST LAST: one of these calls ended at a step between them
ended() {
    for end in $ends; do
        [ "$end" -lt "$1" ] || [ "$end" -gt "$2" ] || return 0
    done
    complain "limited $name: no call ended from step $1 to $2, but at$ends"
}

core_tests=crates/dml_core_tests/out/dml_core_tests_tests
limited fetches 2000 8000 32000 65536 212500 216000 220000 262144
ended 0 998
ended 1000 1000
# The list of all that are fetched, 90,112 bytes, has its room here, so what is refused first is a plan.
limited fetches 131072 160000 200000
[ "$behind_other" = 3 ] || complain 'limited fetches: no step was refused behind a plan'
limited full_list 2000 16000 32000 65536 100000 107500 131072 262144
ended 0 399
ended 410 410
[ "$behind_list" -gt 0 ] || complain 'limited full_list: no plan was refused behind a list'
limited two_rows 2000 16000 52000 131072 200000 262144 274000 276000 284500 300000 308500 311500 400000
ended 0 1599
ended 2100 2100
ended 2101 2299
ended 2300 2300
# From some 123,000 bytes on the list of the submits has its room beside the plan of the fetches before them, but not
# beside what the making of this plan takes.
limited long_row 2000 16000 32000 56000 100000 122900 123000 123500 126000 130000 151000 400000
ended 0 199
ended 2047 2047
ended 2048 2048
limited bad_end 2000 16000 32000 52000 56000 100000 122900 123000 123500 126000 130000 400000
ended 0 199
ended 200 1999
ended 2000 2000
# From 98,304 bytes on the list of the submits has its room, and would not beside the plan before the row.
limited old_plan 2000 16000 32000 56000 80000 89000 91000 95000 98000 98900 100000 400000
ended 0 1024
ended 1027 1027
# Nor beside the committed waves of a plan that is not over.
limited part_plan 2000 16000 32000 56000 80000 89000 91000 95000 98000 100000 400000
ended 0 0
ended 1025 1025
ended 1026 1026
ended 1027 1027

# ---- a server that drops its log under a limit on all memory

portal_tests=crates/dml_portal_tests/out/dml_portal_tests_tests

# dropped BYTES LEAST MOST: with so many bytes left behind its first round, a server that stays up serves all its
# rounds, dropping its log at least and at most so often
dropped() {
    log_test=tests::staying_growths::log_dropped_under_a_limit
    before=$(growths "$portal_tests" "tests::staying_growths::set_up_of_${log_test##*:}")
    REFUSE_ABOVE=$1 REFUSE_FROM=$((before + 1)) REFUSE_LOG=$work/log LD_PRELOAD=$work/refuse.so \
        "$portal_tests" "$log_test" >"$work/out" 2>&1 </dev/null ||
        complain "a log dropped under a limit: with $1 bytes: fails: $(cat "$work/out")"
    times=$(sed -n 's/.*dropped \([0-9]*\) times.*/\1/p' "$work/out")
    [ "${times:-0}" -ge "$2" ] && [ "${times:-0}" -le "$3" ] ||
        complain "a log dropped under a limit: with $1 bytes: ${times:-not} times, and not $2 to $3"
    printf 'refusals: dml_portal, with %s bytes left the log is dropped %s times\n' "$1" "${times:-no}"
}

dropped 0 400 400
dropped 100000 1 399
dropped 1000000 1 99
dropped 100000000 0 0

# ---- the program

printf 'image 2\npage 0 0102\npoke 4 ff\nnoop\nfill 7 8 16\nmove 0 4 16\ndualcast 0 64 4160 8\nraw %0128d\nshow 0 32\n' 0 >"$work/small.script"
printf 'image 1\npage 0\nbatch\nfill 1 0 8\nmove 0 8 8 flags 1\nend\nnoop\nshow 0 16\n' >"$work/batch.script"
{
    echo 'image 256'
    page_number=0
    while [ "$page_number" -lt 256 ]; do
        echo "page $page_number"
        page_number=$((page_number + 1))
    done
    printf 'compare 0 0 1048576\ncompare 0 0 1048576\nmove 0 64 8\ncompare 0 0 1048576\nshow 0 1\n'
    printf 'batch\ncompare 0 0 1048576\ncompare 0 0 1048576\ncompare 0 0 1048576 flags 1\nend\n'
} >"$work/workers.script"
printf 'image 2\npage 0\nfill 1 2\n' >"$work/faulty.script"
descriptor=000000000c000003000000000000000000100000000000000020000000000000
descriptor=${descriptor}6400000000000000000000000000000000000000000000000000000000000000

program fill examples/fill.script run
program operations "$work/small.script" run --workers 1 --chunk=64 --arena 4096
program batch "$work/batch.script" run
program workers "$work/workers.script" run --workers 2 --chunk 1048576
program script_fault "$work/faulty.script" run
program empty_script /dev/null run
program bad_word /dev/null run --workers x
program bad_setting /dev/null run --chunk 12
program help /dev/null help
program help_of_run /dev/null run --help
program decode /dev/null decode "$descriptor"
program decode_bad_hex /dev/null decode 00
program no_word /dev/null

# ---- the libraries

libraries=$(sed -n 's/^\([a-z0-9_]*\)[^:#]*:.*/\1/p' crates.txt)
for name in $libraries; do
    library "$name"
done
for key in $in_parts; do
    whole=$work/ends_$(echo "${key#*:}" | sed 's/_by_steps$//')
    others=$(comm -23 "$whole" "$work/ends_${key#*:}" | tr '\n' ' ')
    [ -s "$whole" ] && [ -z "$others" ] || complain "$key: does not end at $others, where the whole calls end"
done
for twice in $(cut -d ' ' -f 1 "$work/counts" | sort | uniq -d); do
    complain "two tests of one crate are named $twice"
done
shared=$(printf '%s' "$share_set_up" | sed 's/=[a-z_]*//g')
for wanted in $take_none $make_nothing $want_records $end_each $say_ends $in_parts $shared; do
    grep -q "^$wanted " "$work/counts" || complain "there is no test $wanted"
done

# ---- the table

# Of a row with a key: the key, the least and the greatest number of growths.
rows() {
    awk -F'|' '/^\|/ {
        for (i = 2; i < NF; i++) {
            key = $i; gsub(/[ `]/, "", key)
            if ($i ~ /^ *`[a-z_]+:[a-z_0-9]+` *$/) {
                count = split($(i + 1), number, " ")
                print key, number[1], count == 3 ? number[3] : number[1]
                next
            }
        }
    }' "$page"
}

# Of a library's files, lib.rt first: the exported calls that take an allocator or answer an error, which may be want of
# memory, a method behind the name of its type, or of an exported alias of that; of the library for C only what is
# exported to C.
calls() {
    awk -v for_c="$([ "$1" = dml_c ] && echo 1)" '
        FNR == 1 { type = "" }
        FILENAME ~ /\/lib\.rt$/ {
            if (/^pub use /) is_use = 1
            if (is_use) {
                text = $0; gsub(/[A-Za-z0-9_]+::/, " ", text); gsub(/[^A-Za-z0-9_]+/, " ", text)
                count = split(text, words, " ")
                for (i = 1; i <= count; i++) exported[words[i]] = 1
            }
            if (/;/) is_use = 0
        }
        /^pub type / {
            short = $3; sub(/[^A-Za-z0-9_].*/, "", short)
            long = $0; sub(/^.* = /, "", long); sub(/[^A-Za-z0-9_].*/, "", long)
            if (short in exported) alias[long] = short
        }
        /^impl/ {
            type = $0; sub(/^impl(<[^>]*>)? /, "", type); sub(/^.* for /, "", type); sub(/[^A-Za-z0-9_].*/, "", type)
        }
        /^}/ { type = "" }
        /^(    )?pub (extern "C" )?fn [a-z]/ {
            name = $0; sub(/^.*fn /, "", name); sub(/[^a-z0-9_].*/, "", name)
            is_method = /^    /; is_exported = is_method ? type in exported && !for_c : /extern/ || name in exported
            is_inside = 1
        }
        is_inside && /alloc: Global|Result<.*[A-Za-z]Error>/ {
            if (is_exported) { types[++calls] = is_method ? type : ""; names[calls] = name }
            is_inside = 0
        }
        is_inside && /^ *(\{|requires|ensures)|\{ *$|;$/ { is_inside = 0 }
        END {
            for (i = 1; i <= calls; i++) {
                type = types[i] in alias ? alias[types[i]] : types[i]
                print type ? type "::" names[i] : names[i]
            }
        }
    ' "crates/$1/src/lib.rt" $(find "crates/$1/src" -name '*.rt' ! -name lib.rt ! -path '*tests*' | sort)
}

if [ "$1" = write ]; then
    while read -r key growths; do
        sed "/\`$key\`/s/\`$key\` | [0-9]* |/\`$key\` | $growths |/" "$page" >"$work/page" && cp "$work/page" "$page"
    done <"$work/counts"
fi
rows >"$work/rows"
while read -r key growths; do
    grep -q "^$key " "$work/rows" || complain "$page has no row for $key, which takes $growths"
done <"$work/counts"
while read -r key least most; do
    growths=$(sed -n "s/^$key //p" "$work/counts")
    if [ -z "$growths" ]; then
        complain "$page has a row for $key, which is no test and no run of the program"
    elif [ "$growths" -lt "$least" ] || [ "$growths" -gt "$most" ]; then
        complain "$key: $growths growths, and $page has $least${most:+ to $most}"
    fi
done <"$work/rows"
for name in $libraries; do
    [ -f "crates/$name/src/lib.rt" ] || continue
    calls "$name" >"$work/calls"
    while read -r call; do
        grep "^| [^|]*\`$call\`" "$page" | grep -Eq '[|] `[a-z_]+:[a-z_0-9]+` [|]|tests/c_(library|examples)[.]sh' ||
            complain "$page has no row with a test for the call $call of $name"
    done <"$work/calls"
done
exit "$failed"
