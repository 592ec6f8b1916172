#!/bin/sh
# Tries this repository's library and example.py on the conformance list, and the Rust itself where differential/build.sh has built it. Then shows that
# try.py notices mistakes: each of five programs that answer one thing wrong must be told so.
#
#   conformance/test.sh [OUT]
set -eu

here=$(cd "$(dirname "$0")" && pwd)
top=$(cd "$here/.." && pwd)
out=${1:-$top/target/conformance}
judge=$top/target/differential/target/release/judge
mkdir -p "$out"

(cd "$top/crates/host_c" && rt lib) >"$out/lib.log" 2>&1 || { tail -n 20 "$out/lib.log"; exit 1; }
cc -std=c99 -O2 -Wall -Wextra -pedantic -I"$top/include" "$here/merqyduk.c" "$top/crates/host_c/out/libhost_c.a" -o "$out/merqyduk"

# Tries a program; shows the last line, or all where an answer is wrong.
right() {
    what=$1
    shift
    python3 "$here/try.py" "$@" >"$out/right.log" || { cat "$out/right.log"; echo "$what is wrong"; exit 1; }
    echo "$what: $(tail -n 1 "$out/right.log")"
}
right "the library" "$out/merqyduk"
right "example.py" python3 "$here/example.py"
if [ -x "$judge" ]; then
    right "the Rust" "$judge" answer
    # The list that is kept is the one that the Rust gives.
    "$judge" conformance 1 | cmp - "$here/encodings.txt"
fi

# A wrong program: ours, with its output changed, or its input.
wrong() {
    status=0
    python3 "$here/try.py" sh -c "${3:-cat} | '$out/merqyduk' | $2" >"$out/wrong.log" || status=$?
    [ "$status" -eq 1 ] || { echo "try.py did not notice: $1 (status $status)"; exit 1; }
    echo "noticed: $1: $(tail -n 1 "$out/wrong.log")"
}
wrong "7 answered as 5" "sed 's/^refused 7\$/refused 5/'"
wrong "the last digit of one profile" "sed '1s/.\$/f/'"
wrong "an answer left out" "sed '3750d'"
wrong "adapted gray as gray" cat "sed 's/^\([0-9]*\) 4 /\1 1 /'"
wrong "4 of adapted gray as 3" "sed '3601,\$s/^refused 4\$/refused 3/'"
