# Read by tools/controls.sh, tools/more_edits.sh and tools/test_edits.sh at the top of the repository, whose folder is
# then $top: a whole copy of its crates in $room, without what rt has made, which goes when the script ends; and what
# rewrites a place of the copy. A command of rt in the copy begins by itself with what checks here have kept.
top=$(pwd)
room=$(mktemp -d) || exit 2
trap 'rm -rf "$room"' EXIT
trap 'exit 2' HUP INT TERM

# restored CRATE: the crate's sources in the copy are those of the repository
restored() {
    for part in src specs proofs; do
        rm -rf "$room/crates/$1/$part"
        [ ! -e "$top/crates/$1/$part" ] || cp -a "$top/crates/$1/$part" "$room/crates/$1/$part"
    done
}

# rewritten FILE: makes its rewrites in the current folder; says why where one cannot be made
rewritten() {
    awk '
        function fails(why) { print why; failed = 1; exit 1 }
        /^file: / { path = substr($0, 7) }
        /^old: / { old = substr($0, 6) }
        /^new:/ {
            new = substr($0, 6)
            if (path == "" || old == "") fails("a line new: stands before any file: or old:")
            text = ""
            while ((got = (getline line < path)) > 0) text = text line "\n"
            close(path)
            if (got < 0) fails("there is no file " path)
            at = index(text, old)
            rest = substr(text, at + length(old))
            if (at == 0 || index(rest, old)) fails("an old: text is not in " path " once")
            printf "%s%s%s", substr(text, 1, at - 1), new, rest > path
            close(path)
            old = ""
            pairs++
        }
        END { if (!failed && !pairs) { print "it has no lines old: and new:"; exit 1 } }
    ' "$1"
}

tar -cf - --exclude='crates/*/out' crates.txt HANDLES crates | tar -xf - -C "$room" || exit 2
