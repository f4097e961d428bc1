#!/bin/sh
# Compares the vectors that the second program made below a folder with the stored ones, both ways: each file that it made is that of the vector program, and each vector program has
# all its vectors from there.
#   tools/vectors.sh FOLDER
set -eu
export LC_ALL=C
cd "$(dirname "$0")/.."
made=${1:?which folder}
status=0
wrong() { echo "$1" >&2; status=1; }
for program in $({ ls "$made"; ls -d crates/*_vectors | sed 's,.*/,,'; } | sort -u); do
    if [ ! -d "$made/$program" ]; then wrong "crates/$program: the second program makes no vectors for it"; continue; fi
    if [ ! -d "crates/$program" ]; then wrong "$program: the second program makes vectors for it, and crates/ has no such program"; continue; fi
    right=1
    for file in $({ ls "$made/$program"; cd "crates/$program" && ls -d stdin stdout args data 2>/dev/null || true; } | sort -u); do
        diff -rq "$made/$program/$file" "crates/$program/$file" >&2 || right=0
    done
    if [ $right -eq 1 ]; then echo "crates/$program: $(wc -l <"crates/$program/stdout" | tr -d ' ') vectors, as stored"; else wrong "crates/$program: not as stored"; fi
done
exit $status
