#!/bin/sh
# Runs what the pages show: each command of README.md and docs/GUIDE.md is run, and what it prints is compared with what
# stands there; the programs in them are those of crates/example_*; each link and each path of a page leads somewhere; and
# conformance/README.md names each script of its kit. So no page goes stale. Works on the binary that the gate leaves in
# crates/dmljob/out; `check` calls it. With the word `write`, the answers and programs in the pages are written anew
# instead (look at each change before you keep it).
#
# A block fenced as ```console is a session of sh: a line `$ COMMAND` is typed, with the lines of its here-document or
# behind its backslashes, and the lines after it are what it prints, on both outputs. Each block begins in a new folder
# with links to dmljob, examples, conformance and tests. A line of a block fenced as ```sh, or indented by four blanks,
# is a command that is not run here; what it calls has to exist, and a run of dmljob among them has to succeed. A block
# fenced as ```rust is the file that the page has named last, crates/example_NAME/src/main.rt or a module beside it, and
# the first block behind it that is fenced as ```text is what the program prints: its file stdout, which the gate
# compares with each run. All other such blocks are pictures and forms. Every other fence is refused.
top=$(cd "$(dirname "$0")/.." && pwd) || exit 2
if [ ! -x "$top/crates/dmljob/out/dmljob" ]; then
    echo "guide: crates/dmljob/out/dmljob is missing: run rt ci first" >&2
    exit 1
fi
work=$(mktemp -d) || exit 2
trap 'rm -rf "$work"' EXIT
failed=0
commands=0

complain() {
    printf 'guide: %s\n' "$*" >&2
    failed=1
}

# cut PAGE: each console block into N.block and N.sh, each program and what it prints into N.shown with the name of its
# file in N.file, the other commands into `others`, bad fences into `bad`
cut() {
    awk -v work="$work/blocks" '
        function typed(line) {
            print "status_so_far=$?; cat <<\"END_OF_TYPED\"" >sh
            text = line; rest = substr(line, 3); pending = rest
            here = ""
            if (match(rest, /<<.?[A-Z]+/)) { here = substr(rest, RSTART + 2, RLENGTH - 2); gsub(/[^A-Z]/, "", here) }
            goes_on = here != "" || rest ~ /\\$/
        }
        function ended() { printf "%s\nEND_OF_TYPED\n(exit $status_so_far)\n%s\n", text, pending >sh }
        /^```/ && !inside {
            inside = 1; kind = substr($0, 4)
            if (kind == "console") {
                number++; block = work "/" number ".block"; sh = work "/" number ".sh"
                printf "" >block; printf "" >sh; goes_on = 0
                print NR >(work "/" number ".line")
            } else if (kind == "rust" || kind == "text" && ran != "") {
                shown = work "/" ++files ".shown"
                printf "" >shown
                file = kind == "rust" ? named : ran "/stdout"
                print file >(work "/" files ".file")
                ran = kind == "rust" ? substr(named, 1, index(named, "/src/") - 1) : ""
            } else if (kind != "sh" && kind != "text") print NR ": a block fenced as \"" kind "\"" >(work "/bad")
            next
        }
        /^```/ { inside = 0; shown = ""; next }
        !inside && match($0, /crates\/example_[a-z_]*\/src\/[a-z_]*\.rt/) { named = substr($0, RSTART, RLENGTH) }
        shown != "" { print >shown }
        inside && kind == "console" {
            print >block
            if (goes_on) {
                text = text "\n" $0; pending = pending "\n" $0
                goes_on = here != "" ? $0 != here : $0 ~ /\\$/
                if (!goes_on) ended()
            } else if (/^\$ /) { typed($0); if (!goes_on) ended() }
        }
        inside && kind == "sh" { print >(work "/others") }
        !inside && /^    [.a-z]/ && was_blank { print substr($0, 5) >(work "/others") }
        { was_blank = $0 == "" }
    ' "$1"
}

# session N: runs block N in a new folder; its transcript is the file N.got
session() {
    rm -rf "$work/room"
    mkdir "$work/room" || exit 2
    for name in dmljob examples conformance tests; do
        ln -s "$top/$name" "$work/room/$name"
    done
    (cd "$work/room" && exec sh "$work/blocks/$1.sh") >"$work/blocks/$1.got" 2>&1 </dev/null
    commands=$((commands + $(grep -c '^\$ ' "$work/blocks/$1.block")))
}

# other COMMAND..: a command that is not run
other() {
    case $1 in
        sh) [ -f "$top/$2" ] || complain "$page: sh $2: there is no such file" ;;
        ./dmljob)
            (cd "$top" && eval "$*") >/dev/null 2>&1 || complain "$page: $*: fails"
            ;;
        ./*) [ -x "$top/$1" ] || complain "$page: $1: there is no such command" ;;
        cd) [ -d "$top/$2" ] && [ "$3 $4 $5" = '&& rt run' ] || complain "$page: $*: not a run of a crate" ;;
        *) complain "$page: $*: no command that is known here" ;;
    esac
}

# compare PAGE: each program that the page shows, and what it prints, with its file
compare() {
    for block in $(ls "$work/blocks" | sed -n 's/\.shown$//p' | sort -n); do
        file=$(cat "$work/blocks/$block.file")
        [ -n "$file" ] || complain "$1: a program whose file is not named before it"
        cmp -s "$work/blocks/$block.shown" "$top/$file" || {
            complain "$1: shows $file otherwise:"
            diff "$work/blocks/$block.shown" "$top/$file" >&2
        }
        printf '%s\n' "$file" >>"$work/programs"
    done
}

# rewrite PAGE: puts the transcripts in the places of the blocks, and programs and what they print in those of theirs
rewrite() {
    awk -v work="$work/blocks" -v top="$top" '
        function put(file, line) { while ((getline line <file) > 0) print line; close(file); skip = 1 }
        /^```console$/ { print; put(work "/" ++number ".got"); next }
        /^```rust$/ || /^```text$/ && ran {
            print
            ran = $0 == "```rust"
            getline file <(work "/" ++files ".file")
            put(top "/" file)
            next
        }
        /^```$/ { skip = 0 }
        !skip
    ' "$1" >"$work/page" && cp "$work/page" "$1"
}

# ---- links

# targets PAGE: the target of each link, one a line
targets() {
    awk '/^```/ { inside = !inside }
        { while (!inside && match($0, /\]\([^)]*\)/)) {
            print substr($0, RSTART + 2, RLENGTH - 3)
            $0 = substr($0, RSTART + RLENGTH)
        } }' "$1"
}

# has_heading PAGE ANCHOR: whether a heading of the page has this anchor
has_heading() {
    sed -n 's/^##* //p' "$1" | tr 'A-Z ' 'a-z-' | sed 's/[^a-z0-9_-]//g' | grep -qx -e "$2"
}

# paths PAGE: each path from the top of the repository that the page names, but what is built, and but forms with a NAME
paths() {
    grep -oE '(^|[^A-Za-z0-9_./-])(bench|conformance|crates|docs|examples|include|tests|tools)/[A-Za-z0-9_./-]+' "$1" |
        grep -oE '[a-z].*' | sed 's/[.,]*$//' | grep -vE '/out/|[A-Z]{4,}($|/)' | sort -u
}

# exists PATH: whether it is in the repository, from its top or from the sources of a crate
exists() {
    for found in "$top/$1" "$top"/crates/*/src/"$1"; do
        [ ! -e "$found" ] || return 0
    done
    return 1
}

# linked PAGE: complains of each link and each path of the page that leads nowhere
linked() {
    for target in $(targets "$top/$1"); do
        links=$((links + 1))
        case $target in http://* | https://*) continue ;; esac
        file=${target%%#*}
        to=$top/$(dirname "$1")/$file
        [ -n "$file" ] || to=$top/$1
        [ -e "$to" ] || { complain "$1: a link to $target: there is no such page"; continue; }
        [ "$target" = "$file" ] || has_heading "$to" "${target#*#}" || complain "$1: a link to $target: no such heading"
    done
    for path in $(paths "$top/$1"); do
        links=$((links + 1))
        exists "$path" || complain "$1: names $path: there is no such file"
    done
}

# ---- the pages

: >"$work/programs"
for page in README.md docs/GUIDE.md; do
    rm -rf "$work/blocks"
    mkdir "$work/blocks" || exit 2
    cut "$top/$page"
    [ ! -f "$work/blocks/bad" ] || complain "$page: $(cat "$work/blocks/bad")"
    for block in $(ls "$work/blocks" | sed -n 's/\.block$//p' | sort -n); do
        session "$block"
        [ "${1:-}" = write ] || diff "$work/blocks/$block.block" "$work/blocks/$block.got" >"$work/difference" || {
            complain "$page: the block at line $(cat "$work/blocks/$block.line") prints otherwise:"
            cat "$work/difference" >&2
        }
    done
    [ "${1:-}" != write ] || rewrite "$top/$page"
    [ "${1:-}" = write ] || compare "$page"
    [ -n "$(ls "$work/blocks")" ] || complain "$page: shows no command"
    [ ! -f "$work/blocks/others" ] || while read -r line; do
        other $line
        commands=$((commands + 1))
    done <"$work/blocks/others"
done
for program in "$top"/crates/example_*/src/*.rt; do
    file=${program#"$top"/}
    [ "${1:-}" = write ] || grep -qx -e "$file" "$work/programs" || complain "docs/GUIDE.md does not show $file"
    case $file in
        crates/example_portal/*) lines=85 ;;
        crates/example_server/*) lines=120 ;;
        crates/example_guest/*) lines=140 ;;
        *) lines=60 ;;
    esac
    [ "${file##*/}" != main.rt ] || [ "$(wc -l <"$program")" -lt "$lines" ] || complain "$file: $lines lines or more"
done

links=0
for page in README.md conformance/README.md examples/README.md $(cd "$top" && ls docs/*.md); do
    linked "$page"
done
for page in "$top"/docs/*.md; do
    targets "$top/README.md" | grep -qx -e "docs/$(basename "$page")" ||
        complain "README.md: no link to docs/$(basename "$page")"
done

# named HEADING: the names in the last column of the table under a heading of the kit's page, patterns of the shell
named() {
    awk -v heading="## $1" '/^## / { here = $0 == heading } here && /^\|/ { sub(/ *\|$/, ""); sub(/.*\|/, ""); print }' \
        "$top/conformance/README.md" | grep -o '`[^`]*`' | tr -d '`'
}

for script in "$top"/conformance/*.script; do
    basename "$script" .script
done | sort >"$work/scripts"
named 'The rules and their scripts' >"$work/patterns"
while read -r name; do
    while read -r pattern; do
        case $name in $pattern) echo "$name" ;; esac
    done <"$work/patterns"
done <"$work/scripts" | sort -u | comm -3 - "$work/scripts" >"$work/unnamed"
[ ! -s "$work/unnamed" ] || complain "conformance/README.md: its rules name no" $(cat "$work/unnamed")
for pattern in $(named 'Hold a device against it' | cat - "$work/patterns" | sed 's/[*]/.*/g'); do
    grep -qx -e "$pattern" "$work/scripts" || complain "conformance/README.md: $pattern names no script"
done
# texts: each text of a fault and of an ending, and each first word of a line, as the sources have them
texts() {
    sed -n 's/.*Kind::[A-Za-z]* => "\(.*\)",/\1/p' "$top/crates/dml_grammar/src/faults.rt"
    grep -ho 'write_str("[^"]*\\n")' "$top"/crates/dml_command/src/refusals.rt "$top"/crates/dmljob/src/refusals.rt |
        sed 's/.*("//; s/\\n")//'
    sed -n 's/^ *b"\([a-z-]*\)" => Some(Word::.*/\1/p' "$top/crates/dml_grammar/src/table.rt"
}
texts >"$work/texts"
[ "$(wc -l <"$work/texts")" -ge 30 ] || complain "the sources' texts were not found"
while read -r text; do
    grep -qF -e "$text" "$top/docs/GUIDE.md" || complain "docs/GUIDE.md does not tell: $text"
done <"$work/texts"
printf 'guide: %s commands of README.md and docs/GUIDE.md; %s programs and what they print; %s links and paths\n' \
    "$commands" "$(($(wc -l <"$work/programs") / 2))" "$links"
exit "$failed"
