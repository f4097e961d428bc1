#!/bin/sh
# Tries some must-fail edits of one crate over what rt check has proved: rt must-fail CRATE tries all of them. After rt check in crates/CRATE:
#   tools/try.sh CRATE [EDIT ..]     all edits of the crate where none is named
# Then says what the prover said first of each (tools/edits.sh). Ends with status 1 if one is not refused, or not for a fact.
set -eu
cd "$(dirname "$0")/.."
crate=${1:?which crate}
shift
[ -d "crates/$crate/must-fail" ] || { echo "tools/try.sh: no crates/$crate/must-fail" >&2; exit 2; }
[ $# -gt 0 ] || set -- $(cd "crates/$crate/must-fail" && ls ./*.edit | sed 's,^\./,,; s,\.edit$,,')
work=$(mktemp -d)
trap 'rm -rf "$work"' EXIT
# A repository with the same crates and these edits alone; rt takes there what was proved of the same files here.
cp crates.txt "$work"
[ ! -f HANDLES ] || cp HANDLES "$work"
mkdir "$work/crates" "$work/tools" "$work/.git"
tar cf - --exclude=must-fail --exclude=out crates | (cd "$work" && tar xf -)
cp tools/edits.sh "$work/tools/"
mkdir "$work/crates/$crate/must-fail"
for edit; do cp "crates/$crate/must-fail/$edit.edit" "$work/crates/$crate/must-fail/"; done
status=0
(cd "$work" && rt must-fail "$crate") >"$work/said" || status=1
grep -v '^rt: must-fail .*: refused' "$work/said" || true
"$work/tools/edits.sh" -v "$work/said" "$crate" || status=1
exit $status
