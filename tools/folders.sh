#!/bin/sh
# Runs the sheet program in each of the folders that the second program makes and in those of examples/, and compares what it prints. After rt ci:
#   tools/folders.sh [PROGRAM]     crates/sheet/out/sheet where it is left out
# A folder in which the output differs is named, with the first lines of the difference. Its last line has the number of folders; if any differs its status is 1.
set -eu
program=$(readlink -f "${1:-$(dirname "$0")/../crates/sheet/out/sheet}")
cd "$(dirname "$0")/.."
[ -f "$program" ] || { echo "folders.sh: no $program: run rt ci, or tools/program.sh sheet, first" >&2; exit 2; }
run=$PWD/tools/run.sh
work=$(mktemp -d)
trap 'rm -rf "$work"' EXIT
CARGO_TARGET_DIR="${CARGO_TARGET_DIR:-$work/cargo}" cargo run --quiet --release --locked --offline --manifest-path second/Cargo.toml --bin second -- folders "$work/folders"
differ=0
total=0
for expected in "$work"/folders/*/expect examples/*/expected.txt examples/*/*/expected.txt; do
    folder=$(dirname "$expected")
    total=$((total + 1))
    (cd "$folder" && "$run" "$program") >"$work/printed" </dev/null || echo "ended with status $?" >>"$work/printed"
    if ! cmp -s "$work/printed" "$expected"; then
        differ=$((differ + 1))
        echo "${folder#"$work/folders/"} (< printed, > expected):"
        diff "$work/printed" "$expected" | head -6 || true
    fi
done
[ "$differ" -eq 0 ] || { echo "$total folders, and the sheet program's output differs in $differ"; exit 1; }
echo "$total folders, and the sheet program prints what it has to"
