#!/bin/sh
# Searches machine code for instructions that divide and for calls of functions that do.
#
#   divisions/machine_code.sh
#
# Searched are
# - a library with one function, which puts a float's seven decimals into a slice: all code in it is on the way to that text, and none may divide;
# - the library for C and C++: nothing in it may divide integers, and nothing in a function of `decimal` or `digits` may divide;
# - a file in C that divides in seven ways, all of which must be found.
# Needs rt, cc and objdump.
set -eu
top=$(cd "$(dirname "$0")/.." && pwd)
room=$(mktemp -d)
trap 'rm -rf "$room"' EXIT
fail() {
    printf 'divisions/machine_code.sh: %s\n' "$*" >&2
    exit 1
}

# Each instruction that divides, and each relocation that names a function that does, behind the function in which it stands.
divides() { # FILE
    objdump -dr --no-show-raw-insn "$1" >"$room/code"
    awk '/^[0-9a-f]+ <.*>:$/ { f = $2 }
        $1 ~ /^[0-9a-f]+:$/ && $2 ~ /^(v?div[sp][sd]|i?div[bwlq]?|fi?divr?p?[sl]?)$/ { print f, $2 }
        $2 ~ /^R_X86_64/ && $3 ~ /^(__u?(div|mod)[a-z]*[0-9]|fmod|remainder)/ { print f, $3 }' "$room/code" | sort | uniq -c
}
size() { echo "$(grep -c '>:$' "$room/code") functions, $(grep -cE '^ +[0-9a-f]+:' "$room/code") instructions"; }
build() { # FOLDER CRATE
    (cd "$1/crates/$2" && rt lib) >"$room/said" 2>&1 || { cat "$room/said" >&2; fail "$2 is not built"; }
}

cat >"$room/divides.c" <<'C'
unsigned u32_quotient(unsigned n, unsigned d) { return n / d; }
int i32_rest(int n, int d) { return n % d; }
unsigned long u64_quotient(unsigned long n, unsigned long d) { return n / d; }
unsigned __int128 u128_quotient(unsigned __int128 n, unsigned __int128 d) { return n / d; }
float f32_quotient(float x, float y) { return x / y; }
double f64_quotient(double x, double y) { return x / y; }
long double x87_quotient(long double x, long double y) { return x / y; }
C
cc -O2 -c "$room/divides.c" -o "$room/divides.o"
known=$(divides "$room/divides.o" | wc -l)
[ "$known" -eq 7 ] || fail "of 7 divisions in C $known are found"
echo "C: 7 of 7 divisions found"

mkdir -p "$room/crates/seven_decimals/src"
for crate in floats buffer digits decimal; do
    mkdir "$room/crates/$crate"
    for part in src specs proofs; do
        [ ! -d "$top/crates/$crate/$part" ] || cp -R "$top/crates/$crate/$part" "$room/crates/$crate/$part"
    done
    grep "^$crate:" "$top/crates.txt"
done >"$room/crates.txt"
echo 'seven_decimals staticlib: decimal' >>"$room/crates.txt"
cat >"$room/crates/seven_decimals/src/lib.rt" <<'RATTLE'
#![tactic(auto)]

use decimal::put_seven_decimals;

#[unsafe(no_mangle)]
pub extern "C" fn seven_decimals(x: f32, out: &mut [u8]) -> usize {
    if out.len() < 48 {
        return 0;
    }
    put_seven_decimals(out, 0, x)
}
RATTLE
build "$room" seven_decimals
found=$(divides "$room/crates/seven_decimals/out/libseven_decimals.a")
[ -z "$found" ] || fail "on the way to the seven-decimal text: $found"
echo "the seven-decimal text: $(size): none divides"

build "$top" host_c
found=$(divides "$top/crates/host_c/out/libhost_c.a")
grep -q '<decimal::put_seven_decimals>:$' "$room/code" || fail "the library has no decimal::put_seven_decimals"
printf '%s\n' "$found" | grep -E '<(decimal|digits)::| (i?div[bwlq]?|__.*)$' && fail "in the library"
echo "the library: $(size): none divides integers; these divide floats:"
printf '%s\n' "$found"
