#!/bin/sh
# Checks that what docs/CLAUSES.md and README.md's table 'Where each promise is stated' cite is there. From anywhere:
#   tools/clauses.sh [FILE ..]
# In each row of a table, after its first cell, stand names in backticks and then files: each name must be defined in one of the files behind it (a function, a type, a
# definition, a theorem, a case or a field; in a folder, in any of its files; an edit by its name), and each file must be there and define one of the names before it, as far
# as the last semicolon. A file may leave out crates/, the crate of the file before it, or its folder. In the prose of a file that is checked whole, docs/CLAUSES.md, each file
# must be there and each name in backticks be defined: behind a file, as in 'FILE from `name` on' or 'FILE but for `name`', in that file; before 'of CRATE' or 'in CRATE, CRATE and
# CRATE', in each of these; else in some crate. Rows of docs/HOLLOW.md, which name edits, are read as prose. Prints what is wrong and ends with status 1, or how many names were found.
set -eu
cd "$(dirname "$0")/.."
[ $# -gt 0 ] || set -- docs/CLAUSES.md docs/HOLLOW.md README.md
exec awk '
function there(p) {
    if (!(p in known)) known[p] = system("test -e \"" p "\"") == 0
    return known[p]
}
# the file that is meant: as it is written, under crates/, in the crate or in the folder of the file before it
function file_of(p) {
    sub(/\/$/, "", p)
    if (there(p)) return p
    if (there("crates/" p)) return "crates/" p
    if (crate != "" && there(crate "/" p)) return crate "/" p
    if (folder != "" && there(folder "/" p)) return folder "/" p
    return ""
}
function crate_of(p, parts) {
    split(p, parts, "/")
    return parts[1] == "crates" ? "crates/" parts[2] : ""
}
# the names that a line defines: in antt what stands before a colon, in Rattle what is declared
function defined_in(line, source, top, parts, n, i) {
    if (line ~ /^ *(--|\/\/|let )/) return
    if (source ~ /\.rt$/) {
        n = split(line, parts, /[^A-Za-z0-9_]+/)
        for (i = 1; i < n; i++)
            if (parts[i] ~ /^(fn|struct|enum|trait|const|static|mod)$/) { defines[top, parts[i + 1]] = 1; return }
        if (line ~ /^    [A-Z][A-Za-z]*(\(.*\))?,$/) { sub(/^ */, "", line); sub(/[(,].*/, "", line); defines[top, line] = 1 }
        return
    }
    sub(/^ +/, "", line)
    while (line ~ /^(pub|abbrev|unfoldable) /) sub(/^[a-z]+ /, "", line)
    if (line ~ /^(data|record) /) {
        sub(/^[a-z]+ /, "", line); sub(/[ :].*/, "", line)
        defines[top, line] = 1
        return
    }
    if (line !~ / :( |$)/) return
    sub(/ :( .*)?$/, "", line)
    if (line ~ /[(){}=,.]/) return
    n = split(line, parts, / /)
    for (i = 1; i <= n; i++) defines[top, parts[i]] = 1
}
function read_in(top, list, f, line, base) {
    if (top in seen) return
    seen[top] = 1
    list = "find \"" top "\" -name out -prune -o -type f -print"
    while ((list | getline f) > 0) {
        if (f ~ /\.edit$/) { base = f; sub(/^.*\//, "", base); sub(/\.edit$/, "", base); defines[top, base] = 1 }
        if (f !~ /\.(antt|rt)$/) continue
        while ((getline line < f) > 0) defined_in(line, f, top)
        close(f)
    }
    close(list)
}
function fails(what) { print at ": " what; bad++ }
# a group: names, and the files behind them
function judge(i, j, ok) {
    for (i = 1; i <= names; i++) {
        ok = 0
        for (j = 1; j <= files; j++) if ((file[j], name[i]) in defines) ok = 1
        if (ok) found++
        else fails("`" name[i] "` is not defined in " (files ? cited : "any file that is cited"))
    }
    for (j = 1; j <= files && names > 0; j++) {
        if (file[j] !~ /\.(antt|rt)$/ && file[j] !~ /^crates\//) continue
        ok = 0
        for (i = 1; i <= names; i++) if ((file[j], name[i]) in defines) ok = 1
        if (!ok) fails(file[j] " defines none of the names before it")
    }
    names = files = 0
    cited = ""
}
function cite(p, f) {
    f = file_of(p)
    if (f == "") {
        if (p !~ /\// && p !~ /\.(antt|rt|edit|md)$/) return
        fails(p " is not there")
        cited = cited " " p
        return
    }
    file[++files] = f
    cited = cited " " f
    if (crate_of(f) != "") crate = crate_of(f)
    folder = f
    sub(/\/[^\/]*$/, "", folder)
    read_in(f)
}
# names of the prose that stand together, defined in a file or crate, or in some crate where none is said
function settle(where, i, place) {
    place = where == "" ? "crates" : where
    if (names > 0) read_in(place)
    for (i = 1; i <= names; i++) {
        if ((place, name[i]) in defines) found++
        else fails("`" name[i] "` is not defined in " (where == "" ? "any crate" : where))
    }
    names = files = 0
    cited = ""
}
function bare(word) { sub(/\.$/, "", word); return word }
# one paragraph of prose; `again` names stood before the crate that was named last, and stand in the next one of its list too
function prose(text, word, behind, last, f, i, again, once) {
    crate = folder = behind = last = ""
    names = files = again = 0
    gsub(/\n/, " ", text)
    while (match(text, /`[^`]*`|[;(),:]|[A-Za-z0-9_+.\/-]+/)) {
        word = substr(text, RSTART, RLENGTH)
        text = substr(text, RSTART + RLENGTH)
        if (word ~ /^`/) {
            word = substr(word, 2, length(word) - 2)
            if (word ~ /^[a-z]+\/|\.(antt|rt|edit|md|sh)$/) cite(word)
            else if (word ~ /^[A-Za-z][A-Za-z0-9_-]*$/) name[++names] = word
        } else if (word ~ /^[a-z_]+\.?$/ && (last ~ /^(of|in)$/ && names > 0 || again) && there("crates/" (f = bare(word)))) {
            if (last ~ /^(of|in)$/) { again = names; for (i = 1; i <= names; i++) once[i] = name[i] }
            else { names = again; for (i = 1; i <= names; i++) name[i] = once[i] }
            settle("crates/" f)
            behind = ""
        } else if (word ~ /^(specs|proofs|src|must-fail)\/?$/) {
            # the folders in general
        } else if (word ~ /\/|\.(antt|rt|edit|md)\.?$/) {
            if (names > 0) settle(behind)
            cite(bare(word))
            behind = files > 0 ? file[files] : ""
            names = 0
        } else if (word !~ /^(and|or|but|for|from|on|of|in|,)$/) {
            if (names > 0) settle(behind)
            behind = ""
        }
        if (word !~ /^(and|,)$/ && !(f != "" && bare(word) == f)) again = 0
        last = word
    }
    settle(behind)
}
# judges the paragraph that was gathered, by the line at which it began
function end_of_prose(line) {
    line = at
    at = prose_at
    if (paragraph != "") prose(paragraph)
    paragraph = ""
    at = line
}
FNR == 1 { end_of_prose(); whole = FILENAME !~ /README/; on = whole; rows = FILENAME ~ /HOLLOW/ }
/^## / { if (!whole) on = /Where each promise is stated/ }
rows && /^\|/ { end_of_prose(); gsub(/\|/, "; ") }
whole && !/^(\||#|$)/ { if (paragraph == "") prose_at = FILENAME ":" FNR; paragraph = paragraph "\n" $0; next }
whole { end_of_prose() }
!on || !/^\|/ || /^\|[-: |]*$/ { next }
{
    at = FILENAME ":" FNR
    row = $0
    gsub(/\\\|/, " ", row)
    sub(/^\|[^|]*\|/, "", row)
    crate = folder = ""
    while (match(row, /`[^`]*`|;|[A-Za-z0-9_+.\/-]+/)) {
        word = substr(row, RSTART, RLENGTH)
        row = substr(row, RSTART + RLENGTH)
        if (word ~ /^[`;]/ && files > 0) judge()
        if (word ~ /^`/) name[++names] = substr(word, 2, length(word) - 2)
        else {
            sub(/\.$/, "", word)
            if (word ~ /\/|\.(antt|rt|edit|md)$/ || (crate != "" && word ~ /^(specs|proofs|src)$/)) cite(word)
        }
    }
    judge()
}
END {
    end_of_prose()
    if (bad) { print bad " citations are wrong"; exit 1 }
    print found " citations are right"
}' "$@"
