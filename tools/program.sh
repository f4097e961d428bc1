#!/bin/sh
# Proves and builds a program crate where that is needed, and prints where the program is: tools/program.sh NAME
# It is crates/NAME/out/NAME, as rt run and rt ci leave it. One that is newer than all that it is made of is taken as it is. Else rt run proves and builds it; that also runs it once, with
# no words and no input, and what it then writes is dropped. What rt says comes on standard error.
set -eu
cd "$(dirname "$0")/.."
name=${1:?which program}
[ -f "crates/$name/src/main.rt" ] || { echo "tools/program.sh: no program $name" >&2; exit 2; }
program=crates/$name/out/$name
made_of=crates.txt
for crate in $(sed -n "s/^$name: *//p" crates.txt) "$name"; do
    for part in src specs proofs; do [ ! -d "crates/$crate/$part" ] || made_of="$made_of crates/$crate/$part"; done
done
# shellcheck disable=SC2086
if [ ! -f "$program" ] || [ -n "$(find $made_of -newer "$program" | head -n 1)" ]; then
    said=$(mktemp)
    trap 'rm -f "$said"' EXIT
    # (the status is the program's own)
    { (cd "crates/$name" && rt run </dev/null 2>&1 >/dev/null) || true; } | tee "$said" >&2
    grep -q "^rt: running out/$name" "$said" || { echo "tools/program.sh: the program $name is not proved and built" >&2; exit 1; }
    touch "$program"
fi
echo "$PWD/$program"
