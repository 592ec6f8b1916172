#!/bin/sh
# Tries the program `divisions` on scratch copies of its sources: a statement that divides is put into the body of each function, by each of the four
# operators, and the program must find it where the right operand is 10, a name or 3, and pass it where it is 16 or 0x10.
#
#   divisions/try.sh
#
# The program is built by rt; where it stands elsewhere, BIN in the environment is its folder.
set -eu
here=$(cd "$(dirname "$0")" && pwd)
top=$(cd "$here/.." && pwd)
crate=$top/crates/divisions
program=${BIN:-$crate/out}/divisions
room=$(mktemp -d)
trap 'rm -rf "$room"' EXIT
# rt builds a program where it runs it; with no source it prints nothing.
[ -n "${BIN:-}" ] || (cd "$crate" && rt run) >"$room/said" 2>&1 || {
    cat "$room/said" >&2
    exit 1
}
cp -R "$crate/data" "$room/data"
cd "$room/data"
sources=$(grep -v '^trial$' "$crate/args")

# What the program says of the sources, with a statement put after one line of one of them.
said_with() { # SOURCE LINE STATEMENT
    awk -v l="$2" -v s="$3" '{ print } NR == l { print s }' "$crate/data/$1" >"$1"
    # shellcheck disable=SC2086
    "$program" $sources
    cp "$crate/data/$1" "$1"
}

# shellcheck disable=SC2086
"$program" $sources >"$room/plain"
tried=0 wrong=0
for source in $sources; do
    before=$(sed -n "s|^$source: \([0-9]*\) by powers of two, faults 0$|\1|p" "$room/plain")
    # The line { alone begins the body of a function.
    for line in $(grep -n '^{$' "$crate/data/$source" | cut -d: -f1); do
        for operator in / % /= %=; do
            for operand in 10 TEN 3 16 0x10; do
                case $operand in
                16 | 0x10) want="$source: $((before + 1)) by powers of two, faults 0" ;;
                *) want="$source:$((line + 1)): n $operator $operand;" ;;
                esac
                tried=$((tried + 1))
                # grep reads to the end: a program that cannot write says so.
                said_with "$source" "$line" "n $operator $operand;" | grep -xF "$want" >/dev/null || {
                    wrong=$((wrong + 1))
                    echo "$source, after line $line, n $operator $operand: not $want"
                }
            done
        done
    done
done
echo "$((tried - wrong)) of $tried"
[ "$wrong" -eq 0 ] && [ "$tried" -gt 0 ]
