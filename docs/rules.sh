#!/bin/sh
# Runs the examples of docs/RULES.md and docs/BAGS.md through the proved desk: docs/rules.sh [ARCHIVE]
# Without an archive the desk is proved and built first. embed/rules.c asks the desk; what is asked is taken from the tables and the indented lines here:
#   indented lines           `permit ..` a text that is allowed by policy 1 with the bag of the page; `principal.grade = 3` an attribute of that bag
#   `true`, `false` columns  conditions that are so with that bag, under both versions; in a column `is` the row says it, and where there is a column `under version 2` that of version 1
#   `absent` column          conditions that are false under version 1, and leave their policy unsatisfied under version 2, with `!` before them too
#   outcome, policy          what a text decides, under both versions; in columns `version 1` and `version 2` under that one
#   wrong, refused at, right a text that is refused under both versions, or under the one that is said behind it, with the row's number at that line and column, for so many bytes, and one that is not. A text is its code in turn, with `N times` before what is repeated
#                            and `byte` before the number of a byte that no page can show, and P at the start of a piece stands for permit(principal,action,resource)
#   Reserved, so no names    each word that follows is refused as a name
#   at, bytes                the bytes of a bag or question, from top to bottom, named by the heading above
#   root, path, kind, ..     what is looked up in that bag;  no bag, no question: bytes that are none
set -eu
cd "$(dirname "$0")/.."
. tools/x86.sh
work=$(mktemp -d)
trap 'rm -rf "$work"' EXIT
archive=${1-}
if [ -z "$archive" ]; then
    archive=$(tools/archive.sh)
fi

LC_ALL=C awk '
BEGIN { P = "permit(principal,action,resource)"; OFS = "\t" }
function say(line) { said[++lines] = line }
# The same of version 1 and of version 2; the version is the second part of the line.
function both(what, rest, version) { for (version = 1; version <= 2; version++) say(what "\t" version "\t" rest) }
function code(words) { gsub(/`/, "", words); gsub("\001", "|", words); return words }
function digit(d) { return index("0123456789ABCDEF", d) - 1 }
# The text that a cell says: pieces of code, each once or `N times`, and bytes by their numbers.
function pieces(words, out, piece, times) {
    out = ""
    while (match(words, /(byte |[0-9][0-9,]* times )?`[^`]*`/)) {
        piece = substr(words, RSTART, RLENGTH); words = substr(words, RSTART + RLENGTH)
        times = 1
        if (piece ~ /^byte /) { out = out sprintf("%c", 16 * digit(substr(piece, 7, 1)) + digit(substr(piece, 8, 1))); continue }
        if (piece ~ / times `/) { times = piece; sub(/ times .*/, "", times); gsub(/,/, "", times) }
        sub(/^[^`]*`/, "", piece); sub(/^P/, P, piece)
        for (piece = code(piece); times > 0; times--) out = out piece
    }
    return out
}
# A line for each piece of code of a cell: what it is under version 1, and under version 2.
function each(first, second, words, piece) {
    for (; match(words, /`[^`]*`/); words = substr(words, RSTART + RLENGTH)) {
        piece = code(substr(words, RSTART, RLENGTH))
        say(first "\t1\t" piece); say(second "\t2\t" piece)
    }
}
# A line for a cell with a text, maybe under a version; else under both.
function under(what, rest, words, version) {
    if (match(words, / under version [0-9]+$/)) {
        version = substr(words, RSTART); sub(/[^0-9]*/, "", version)
        say(what "\t" version "\t" rest pieces(words))
    } else both(what, rest pieces(words))
}
# The outcome and the policy of a cell such as `allowed by 1`.
function outcome(words, policy) {
    policy = words ~ / by / ? words : "0"
    sub(/.* by /, "", policy); sub(/ by .*/, "", words)
    return words "\t" policy "\t"
}
function text_ends() { if (text != "") both("decided", "allowed\t1\t" text); text = "" }
# Bytes more, which stand where the row says.
function add_bytes(at, more) {
    if (at != split(bytes, each_byte, " ")) { print FILENAME ", line " FNR ": these bytes do not stand at " at > "/dev/stderr"; bad = 1 }
    bytes = bytes (bytes == "" ? "" : " ") more
}
function bytes_end() { if (bytes != "") say(form "\t" bytes); bytes = "" }
/^Reserved, so no names/ { listing = 1 }
listing {
    words = $0; last = sub(/`\..*/, "`", words)
    for (; match(words, /`[^`]*`/); words = substr(words, RSTART + RLENGTH)) both("refused", "7\t1, 49, " RLENGTH - 2 "\t" P "when{principal." code(substr(words, RSTART, RLENGTH)) "==1};")
    listing = !last
    next
}
/^## / { form = /question/ ? "question" : "bag" }
/^    (permit|forbid)|^      when/ { sub(/^ +/, ""); text = text (text == "" ? "" : " ") $0; next }
/^    [a-z]+\.[a-z]+ = / { sub(/^ +/, ""); set[++sets] = $0; next }
!/^\|/ { text_ends(); bytes_end(); columns = 0; next }
{
    line = $0; gsub(/\\\|/, "\001", line)
    n = split(line, cell, / *\| */)
    if (!columns) { columns = n; for (i = 2; i <= n; i++) head[i] = cell[i]; getline; next }
    for (i = 2; i < n; i++) {
        if (head[i] == "true") each("true", "true", cell[i])
        if (head[i] == "false") each("false", "false", cell[i])
        if (head[i] == "absent") each("false", "unsatisfied", cell[i])
        if (head[i] == "is") each(cell[i], head[i + 1] == "under version 2" ? cell[i + 1] : cell[i], cell[i - 1])
        if (head[i] == "outcome") both("decided", cell[i] "\t" cell[i + 1] "\t" code(cell[i - 1]))
        if (head[i] ~ /^version [12]$/) say("decided\t" substr(head[i], 9) "\t" outcome(cell[i]) code(cell[2]))
        if (head[i] == "wrong") under("refused", cell[2] "\t" cell[i + 1] "\t", cell[i])
        if (head[i] == "right") under("accepted", "", cell[i])
        if (head[i] == "bytes") add_bytes(cell[i - 1], code(cell[i]))
        if (head[i] ~ /^no (bag|question)$/) say(head[i] "\t" code(cell[i]))
        if (head[i] == "rows") say("rows\t" cell[i])
    }
    if (head[2] == "root") say("look\t" cell[2] "\t" code(cell[3]) "\t" cell[4] "\t" cell[5] "\t" cell[6] "\t" cell[7])
}
END {
    for (i = 1; i <= sets; i++) print "set\t" set[i]
    for (i = 1; i <= lines; i++) print said[i]
    exit bad
}
' docs/RULES.md docs/BAGS.md >"$work/asked"
$compiler -std=c11 -O2 -Wall -Wextra -Werror -static -Iembed -o "$work/rules" embed/rules.c embed/desk_bags.c "$archive"
$run "$work/rules" <"$work/asked"
