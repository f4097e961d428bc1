#!/usr/bin/env bash
# Runs a proved program in the current folder, after proving and building what is missing:
#
#   second/proved.sh sheet
#   second/proved.sh ask check
#
# Two at once do no harm: whoever comes second waits. While crates are proved, a line for each says how many are left. DESK_WORK names a folder that
# remembers, for one command, what was proved already.
set -euo pipefail

root=$(cd "$(dirname "$(readlink -f "${BASH_SOURCE[0]}")")/.." && pwd -P)
name=$1
shift

fail() {
    echo "desk: $1" >&2
    exit 2
}

command -v rt >/dev/null || fail "no rt on the PATH: the Rattle toolchain is needed to prove, build and run the program $name"

# The crates that a program stands on, and itself.
crates() {
    local crate
    for crate in $(sed -n "s/^$name: *//p" "$root/crates.txt") "$name"; do
        [ ! -d "$root/crates/$crate" ] || echo "$crate"
    done
}

# About how many seconds each crate takes: docs/GATE.md's first number, else 20.
seconds() {
    awk -F'|' -v name="$1" '{ gsub(/ /, "", $2); gsub(/ /, "", $3) } $2 == name { print $3; found = 1; exit } END { if (!found) print 20 }' "$root/docs/GATE.md"
}

# Reads what rt prints, and says for each crate that is proved now how many are left and about how long they take.
progress() {
    local line crate='' left=() sum other
    mapfile -t left < <(crates)
    while IFS= read -r line; do
        printf '%s\n' "$line" >>"$log"
        # a crate's last lines: its name, and whether it is proved
        if [[ $line =~ ^crate\ ([a-z_0-9]+): ]]; then
            crate=${BASH_REMATCH[1]}
            continue
        fi
        [[ $line =~ ^logic=(proved|not-proved) ]] && [ -n "$crate" ] || continue
        local how=${BASH_REMATCH[1]/-/ } rest=()
        for other in "${left[@]}"; do
            [ "$other" = "$crate" ] || rest+=("$other")
        done
        left=("${rest[@]}")
        sum=0
        for other in "${left[@]}"; do
            sum=$((sum + $(seconds "$other")))
        done
        if [ ${#left[@]} -gt 0 ]; then
            echo "desk: $crate $how; at most ${#left[@]} left, about $(((sum + 59) / 60)) min" >&2
        else
            echo "desk: $crate $how" >&2
        fi
    done
}

prove() {
    local lock="$root/second/target/proving.lock"
    mkdir -p "$root/second/target"
    log=$(mktemp)
    exec 9>"$lock"
    if ! flock -n 9; then
        echo "desk: another ./desk or ./sheet is proving; waiting for it" >&2
        flock 9
    fi
    if ! "$root/tools/program.sh" "$name" 2>&1 >/dev/null 9>&- | progress; then
        cat "$log" >&2
        rm -f "$log"
        fail "the program $name is not proved: what rt said is above"
    fi
    rm -f "$log"
    exec 9>&-
}

# The whole script is read before it proves, which takes minutes: it may be changed meanwhile.
main() {
    if [ -z "${DESK_WORK:-}" ] || [ ! -e "$DESK_WORK/$name" ]; then
        prove
        [ -z "${DESK_WORK:-}" ] || : >"$DESK_WORK/$name"
    fi
    exec "$root/crates/$name/out/$name" "$@"
}

main "$@"
