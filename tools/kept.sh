#!/bin/sh
# Holds the repository to tools/kept.txt, the list of its crates, its vector programs with their number of vectors, and its must-fail edits, so that none of them vanishes unseen.
# It also sees that each edit still fits: that the text it replaces stands in its file, once.
#   tools/kept.sh            says what is gone, what is new and what no longer fits, and ends with status 1 if anything is
#   tools/kept.sh --renew    writes the list anew: its diff then shows in the change what went and what came
set -eu
export LC_ALL=C
cd "$(dirname "$0")/.."
kept=tools/kept.txt

# One line for each: 'crate NAME', 'vectors NAME NUMBER', 'edit CRATE/NAME'.
there() {
    sed -n 's/^\([A-Za-z_][A-Za-z0-9_]*\)\( [^:]*\)\{0,1\}:.*/crate \1/p' crates.txt | sort
    for answers in crates/*_vectors/stdout; do
        program=${answers%/stdout}
        echo "vectors ${program#crates/} $(wc -l <"$answers" | tr -d ' ')"
    done | sort
    for edit in crates/*/must-fail/*.edit; do
        crate=${edit#crates/}
        echo "edit ${crate%%/*}/$(basename "$edit" .edit)"
    done | sort
}

# Prints each edit whose 'old:' text is not in the file that its 'file:' line names, or is there more than once.
unfit() {
    for edit in crates/*/must-fail/*.edit; do
        awk -v edit="$edit" -v crate="${edit%/must-fail/*}" '
        function whole(path, line, text) {
            if (path in read) return read[path]
            while ((getline line < path) > 0) text = text line "\n"
            close(path)
            return read[path] = text
        }
        /^file: / { path = crate "/" substr($0, 7) }
        /^old: / {
            old = substr($0, 6); text = whole(path); at = index(text, old); all++
            if (!at) print edit ": not in " path ": " old
            else if (index(substr(text, at + length(old)), old)) print edit ": more than once in " path ": " old
        }
        END { if (!all) print edit ": it replaces nothing" }' "$edit"
    done
}

case ${1-} in
--renew)
    there >$kept
    echo "$kept has $(wc -l <$kept | tr -d ' ') lines"
    exit
    ;;
'') ;;
*)
    echo "usage: tools/kept.sh [--renew]" >&2
    exit 2
    ;;
esac
work=$(mktemp -d)
trap 'rm -rf "$work"' EXIT
there | sort >"$work/there"
sort "$kept" >"$work/kept"
comm -23 "$work/kept" "$work/there" | sed "s|^|gone, though $kept has it: |"
comm -13 "$work/kept" "$work/there" | sed "s|^|new, and not in $kept: |"
status=0
if ! cmp -s "$work/kept" "$work/there"; then
    echo "Where it was meant: tools/kept.sh --renew, and put $kept into the change. Where not: bring back what is gone." >&2
    status=1
fi
unfit >"$work/unfit"
if [ -s "$work/unfit" ]; then
    cat "$work/unfit"
    echo "These edits no longer fit the code: move their lines with it." >&2
    status=1
fi
[ "$status" -eq 0 ] || exit 1
awk '{ n[$1]++; if ($1 == "vectors") sum += $3 }
    END { print n["crate"] " crates, " n["vectors"] " vector programs with " sum " vectors, " n["edit"] " edits: as kept, and the edits fit" }' "$kept"
