#!/bin/sh
# Reads what the prover said first of each must-fail edit, from what rt ci or rt must-fail printed, of all crates or of those named:
#   rt ci | tee FILE; tools/edits.sh FILE [CRATE ..]
# An edit must be refused for a fact: two terms that differ, a bound that does not hold, a clause that is not met. An edit that shows only that the code no longer fits its proofs - a name
# that is not in scope, a text that cannot be read, a field of another name - says nothing of the contract, and is an error here. So is an edit that was not tried, could not be applied
# or was refused by a limit alone. Prints a line for each, and ends with status 1 if there is any; with -v it also prints what was said of each edit that is well.
set -eu
export LC_ALL=C
verbose=0
[ "${1-}" != -v ] || { verbose=1; shift; }
[ $# -gt 0 ] && [ -f "$1" ] || { echo "usage: tools/edits.sh [-v] FILE [CRATE ..]" >&2; exit 2; }
log=$(readlink -f "$1")
shift
cd "$(dirname "$0")/.."
if [ $# -gt 0 ]; then
    for crate; do [ -d "crates/$crate" ] || { echo "tools/edits.sh: no crate $crate" >&2; exit 2; }; done
    edits=$(for crate; do find "crates/$crate/must-fail" -name '*.edit' 2>/dev/null || true; done | sort)
else
    edits=$(find crates -path '*/must-fail/*.edit' | sort)
fi
[ -n "$edits" ] || { echo "0 edits"; exit; }
echo "$edits" | awk -v verbose="$verbose" -v log_file="$log" '
BEGIN {
    while ((getline line < log_file) > 0)
        if (line ~ /^rt: must-fail [^ ]*\.edit: /) {
            name = line; sub(/^rt: must-fail /, "", name); sub(/\.edit: .*/, "", name)
            sub(/^rt: must-fail [^ ]*\.edit: /, "", line)
            said[name] = line
        }
}
# in words, why what was said is nothing about a fact
function unfit(text) {
    if (text ~ /^NOT REFUSED/) return "was not refused"
    if (text ~ /^NOT TRIED/) return "was not tried"
    if (text ~ /^BAD EDIT/) return "could not be applied or read"
    if (text !~ /^refused, as it must be/) return "has no answer that can be read here"
    if (text ~ /^refused, as it must be \(only by a limit/) return "only a limit of the prover refused it"
    if (text ~ /^refused, as it must be \(only because a proof file names/) return "a proof file names what it takes away"
    if (text ~ /not in scope|no module.* is in scope|can be named|cannot be named|is no name|has no `/) return "a name is not there"
    if (text ~ /has no field|has no such|no goal of that name|names no goal|: record `[^`]*(\.Lts\.|\.View\.)/) return "a field or goal is not there"
    if (text ~ /unresolved/) return "a name is not resolved"
    if (text ~ /no occurrence of/) return "a rewriting finds no place"
    if (text ~ /not determined|not yet determined/) return "a term is not determined"
    if (text ~ /operand is missing|expected the end|cannot continue|expected an? [`a-z]*, found/) return "it cannot be read"
    if (text ~ /was not admitted/) return "only what follows from another error was said"
    if (text ~ /^refused, as it must be$/) return "nothing was said of it"
    return ""
}
# what makes it one about a fact, else nothing: each is a way in which the prover says that this is not that
function fact(text) {
    if (text ~ /it is not proved that/) return "a clause, a bound or an invariant is not proved"
    if (text ~ /on the face .*the extension \(path\) type requires/) return "two ends are not equal"
    if (text ~ /two (types|sides|indices|ends|terms)|one side reads/) return "two terms differ"
    if (text ~ /but (this|it) has type|is expected|expected type|but its type/) return "another type"
    if (text ~ /does not follow/) return "a bound does not hold"
    if (text ~ /give a proof of that as the last argument|list the missing equation/) return "an equation is left open"
    if (text ~ /no proof of|found no proof|is not proved|not convertible|does not prove|no term/) return "nothing proves it"
    if (text ~ /does not hold|are not equal|is not equal/) return "two terms are not equal"
    if (text ~ /lands (at|in)/) return "another index"
    # (rt prints 160 characters: where a long folder and goal fill them, that the answer of this goal falls is all that is told, and that it does not fall for a name)
    if (text ~ /^refused, as it must be: \.\/proofs\/\+[^ ]*\/Answers\.antt:[0-9]+:[0-9]+: error: `[^`]*(`|`:|`: [a-z ]*)?$/ && length(text) > 150) return "the answer of a goal falls"
    # (the same, cut inside the first of two terms that are compared, each of them longer than a name)
    if (text ~ /^refused, as it must be: [^ ]*\.antt:[0-9]+:[0-9]+: error: `[^`]*`: `[^`]*$/ && length(text) > 150) return "two terms are compared"
    return ""
}
function short(text) {
    sub(/^refused, as it must be(: )?/, "", text)
    return text
}
function fails(what) { print edit ": " what; bad++ }
{
    n = split($0, part, "/")
    edit = part[2] "/" substr(part[n], 1, length(part[n]) - 5)
    if (!(edit in said)) { fails("was not tried: run rt ci, or rt must-fail " part[2]); next }
    text = said[edit]
    why = unfit(text)
    if (why == "" && fact(text) == "") why = "this is none of the errors about a fact that tools/edits.sh knows"
    if (why != "") fails("not refused for a fact: " why ": " short(text))
    else { good++; if (verbose) print edit ": " fact(text) ": " short(text) }
}
END {
    if (bad) { print bad " of " NR " edits are not as they must be; in the place of one that shows no fact put one of the same shape (another operand, constant or arm), or of the definition"; exit 1 }
    print good " edits, each refused for a fact"
}'
