#!/bin/sh
# Compares the proved programs with the second program on other random vectors than the stored ones. From the repository's root, after rt ci:
#   tools/compare.sh SEED [SCALE [SORT ..]]
# Each sort has SCALE (1 to 1000, 1 where it is left out) times as many vectors as are stored. A line that differs is shown with its number:
# second/README.md, 'To find the reason of a difference', tells how to go on. Ends with status 1 if any line differs, and with the number of vectors compared.
set -eu
cd "$(dirname "$0")/.."
seed=${1:?which seed}
scale=${2:-1}
[ $# -gt 2 ] && shift 2 || set -- $(cd crates && ls -d *_vectors | sed 's/_vectors$//')
work=$(mktemp -d)
trap 'rm -rf "$work"' EXIT
export CARGO_TARGET_DIR="$work/cargo"
cargo run --quiet --release --locked --offline --manifest-path second/Cargo.toml --bin second -- vectors "$work/vectors" --seed "$seed" --scale "$scale"
status=0
total=0
for sort in "$@"; do
    program=crates/${sort}_vectors/out/${sort}_vectors
    [ -f "$program" ] || { echo "compare.sh: no $program: run rt ci, or tools/program.sh ${sort}_vectors, first" >&2; exit 2; }
    tools/run.sh "$program" <"$work/vectors/${sort}_vectors/stdin" >"$work/answers"
    right=$work/vectors/${sort}_vectors/stdout
    count=$(wc -l <"$right")
    total=$((total + count))
    if cmp -s "$work/answers" "$right"; then
        echo "$sort: $count vectors, all alike"
    else
        status=1
        echo "$sort: $count vectors, differing lines (number: here / second program):"
        diff --unchanged-line-format='' --old-line-format='%dn: here   %L' --new-line-format='%dn: second %L' "$work/answers" "$right" | head -20 || true
    fi
done
echo "$total vectors compared, seed $seed"
exit $status
