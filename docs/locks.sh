#!/bin/sh
# Runs the examples of docs/LOCKS.md through the proved desk: docs/locks.sh [ARCHIVE]
# Without an archive the desk is proved and built first. embed/locks.c asks the desk; what is asked is taken from the tables and the indented lines here:
#   indented lines                word, actions, resource: what the page's locks are asked with; in the section of the spelling, the permit of the request's own lock
#   lock, condition               a lock, and the condition of its permit
#   lock, or a line beside it     what is refused with 28, or in a column `accepted` is not: a lock; or a line more, beside the page's words and the lock firm:own, with `words N` for N
#                                 words and `actions N` for N actions. An example is its code in turn, with `N times` before what is repeated; a comma divides two
#   at, bytes                     the bytes of the page's vocabulary and actions, from top to bottom
set -eu
cd "$(dirname "$0")/.."
. tools/x86.sh
work=$(mktemp -d)
trap 'rm -rf "$work"' EXIT
archive=${1-}
if [ -z "$archive" ]; then
    archive=$(tools/archive.sh)
fi

awk '
BEGIN { OFS = "\t" }
function code(words) { gsub(/`/, "", words); gsub("\001", "|", words); return words }
# A line for each example of a cell: its pieces of code, each once or `N times`, up to a comma.
function examples(what, words, out, piece, times, some) {
    out = ""; some = 0
    while (match(words, /([0-9][0-9,]* times )?`[^`]*`/)) {
        if (some && substr(words, 1, RSTART - 1) ~ /,/) { print what, out; out = "" }
        some = 1
        piece = substr(words, RSTART, RLENGTH); words = substr(words, RSTART + RLENGTH)
        times = 1
        if (piece ~ / times `/) { times = piece; sub(/ times .*/, "", times); gsub(/,/, "", times) }
        sub(/^[^`]*`/, "", piece)
        for (piece = code(piece); times > 0; times--) out = out piece
    }
    if (some) print what, out
}
function add_bytes(at, more) {
    if (at != split(bytes, each_byte, " ")) { print "docs/LOCKS.md, line " FNR ": these bytes do not stand at " at > "/dev/stderr"; bad = 1 }
    bytes = bytes (bytes == "" ? "" : " ") more
}
function bytes_end() { if (bytes != "") print form, bytes; bytes = "" }
/^## / { spelling = /spelling/ }
/^The vocabulary above/ { form = "vocabulary" }
/^And the actions above/ { form = "actions" }
/^    (word|actions|resource) / && !/\(/ { sub(/^ +/, ""); print "line", $0; next }
/^    permit/ && spelling { sub(/^ +/, ""); print "spelled", $0; next }
!/^\|/ { bytes_end(); columns = 0; next }
{
    line = $0; gsub(/\\\|/, "\001", line)
    n = split(line, cell, / *\| */)
    if (!columns) { columns = n; for (i = 2; i < n; i++) head[i] = cell[i]; getline; next }
    if (head[2] == "lock" && head[3] ~ /^condition/) print "permit", code(cell[2]), code(cell[3])
    if (head[2] ~ /^lock, or a line/ && head[3] ~ /^refused/) examples("refused", cell[2])
    if (head[2] ~ /^lock, or a line/ && head[3] == "accepted") examples("accepted", cell[2])
    if (head[3] == "bytes") add_bytes(cell[2], code(cell[3]))
}
END { exit bad }
' docs/LOCKS.md >"$work/asked"
$compiler -std=c11 -O2 -Wall -Wextra -Werror -static -Iembed -o "$work/locks" embed/locks.c embed/desk_locks.c "$archive"
$run "$work/locks" <"$work/asked"
