#!/bin/sh
# Times of each crate `rt check`, `rt test` and `rt must-fail CRATE`, each whole and one after another, outside the gate.
# Usage: tools/times.sh [CRATE..]; with none, all crates, in the order of crates.txt. With `ONLY='test must-fail'` it
# runs these commands alone.
#
# The figures are from nothing only in a fresh clone, on a machine on which no check ran before and with nothing beside
# it: rt begins with what earlier checks there kept. A crate behind which another one stands has that one's work done.
# A line for each command says its crate, its seconds by the clock, its processor seconds of user and system, and its
# status; last come the crates by the processor seconds of all three. Status 0 only where each command ends with 0.
cd "$(dirname "$0")/.." || exit 2
work=$(mktemp -d) || exit 2
trap 'rm -rf "$work"' EXIT
failed=0

# timed CRATE FOLDER COMMAND..: a command of rt in a folder
timed() {
    crate=$1
    folder=$2
    shift 2
    start=$(date +%s)
    (cd "$folder" && "$@" >"$work/said" 2>&1; echo "$?" >"$work/status"; times >"$work/spent")
    status=$(cat "$work/status")
    [ "$status" = 0 ] || { failed=1; tail -n 5 "$work/said" >&2; }
    awk -v crate="$crate" -v command="$*" -v clock="$(($(date +%s) - start))" -v status="$status" 'NR == 2 {
        for (i = 1; i <= 2; i++) { split($i, part, "[ms]"); spent[i] = part[1] * 60 + part[2] }
        printf "%-20s %-28s %6d %8.1f %8.1f %s\n", crate, command, clock, spent[1], spent[2], status
    }' "$work/spent" | tee -a "$work/lines"
}

# wanted COMMAND: whether a command is to be timed
wanted() {
    case " ${ONLY:-check test must-fail} " in *" $1 "*) ;; *) return 1 ;; esac
}

printf '%-20s %-28s %6s %8s %8s %s\n' crate command clock user system status
for crate in ${*:-$(sed -n 's/^\([a-z_0-9]*\)[ :].*/\1/p' crates.txt)}; do
    if wanted check; then
        timed "$crate" "crates/$crate" rt check
    fi
    if wanted test && grep -rq '^ *#\[test\]' "crates/$crate/src"; then
        timed "$crate" "crates/$crate" rt test
    fi
    if wanted must-fail && ls "crates/$crate"/must-fail/*.edit >"$work/edits" 2>&1; then
        timed "$crate" . rt must-fail "$crate"
    fi
done
echo
awk '{ clock[$1] += $(NF - 3); spent[$1] += $(NF - 2) + $(NF - 1); all += $(NF - 2) + $(NF - 1) }
    END {
        for (crate in spent) printf "%-20s %6d s by the clock, %7.1f of a processor\n", crate, clock[crate], spent[crate] | "sort -t , -k 2 -n -r"
        close("sort -t , -k 2 -n -r")
        printf "%.0f processor minutes in all\n", all / 60
    }' "$work/lines"
exit "$failed"
