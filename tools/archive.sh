#!/bin/sh
# Proves and builds the desk for C (crate desk_c), and puts its archive in a folder as libdesk.a: tools/archive.sh [FOLDER]
# Without a folder that is target/staticlib. Prints the archive's path; what rt says is shown where it fails.
# After rt ci in a checkout in which nothing was checked otherwise, the libraries that rt ci left there are taken as they are, and only desk_c is proved and compiled over them
# (some seconds): rt lib would prove each of them anew, since it takes only libraries that rt lib or rt check left. In each other case rt lib does it, and proves what is missing.
set -eu
cd "$(dirname "$0")/.."
to=${1:-target/staticlib}
said=$(mktemp)
trap 'rm -f "$said"' EXIT
kit=$(dirname "$(dirname "$(readlink -f "$(command -v rt)")")")
below=$(sed -n 's/^desk_c staticlib: *//p' crates.txt)

# Whether each library below is as rt ci left it: it is there, newer than what it is made of, and none has the stamp of rt lib.
as_ci_left() {
    for crate in $below; do
        # (the folder: its files may be kept from an earlier run)
        built=crates/$crate/out/rlib/$crate.rlib
        [ -f "$built/format" ] && [ ! -e "crates/$crate/out/rlib/stamp" ] || return 1
        [ -z "$(find crates.txt "crates/$crate" -path "crates/$crate/out" -prune -o -newer "$built" -type f -print | grep -v "/must-fail/" | head -n 1)" ] || return 1
    done
}
over_ci() {
    words=''
    for crate in $below; do words="$words --extern $crate=$PWD/crates/$crate/out/rlib/$crate.rlib -L dependency=$PWD/crates/$crate/out/rlib"; done
    mkdir -p crates/desk_c/out
    # (words are names and paths without blanks)
    # shellcheck disable=SC2086
    (cd crates/desk_c && "$kit/bin/rattle" build --crate-name desk_c src/lib.rt --extern "std=$kit/rlibs/std.rlib" $words -L "dependency=$kit/rlibs" \
        --antt-project "$kit/rattle/logic/antt-project.json" --logic-built "$kit/logic_built" --jobs 1 --crate-type staticlib \
        --toolchain "$kit/toolchain" --backend llvm -o out/libdesk_c.a)
}
if ! { as_ci_left && over_ci >"$said" 2>&1 && grep -q '^logic=proved ' "$said"; }; then
    (cd crates/desk_c && rt lib) >"$said" 2>&1 || { cat "$said" >&2; exit 1; }
fi
mkdir -p "$to"
cp crates/desk_c/out/libdesk_c.a "$to/libdesk.a"
echo "$to/libdesk.a"
