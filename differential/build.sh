#!/bin/sh
# Builds the judge: the original Rust, unchanged, and our program around it. Beside it a copy of the
# original that reports floats, for counts.
#
#   differential/build.sh [SRC] [OUT]
#
# SRC is the folder of the original sources (it holds jxl/src/api/color.rs); without it,
# shared/docs/src beside the repository. OUT takes the workspace and what is built; without it,
# target/differential of the repository, which git ignores. The program is then
# OUT/target/release/judge.
set -eu

fail() {
    echo "build.sh: $*" >&2
    exit 1
}
if [ $# -gt 2 ]; then
    echo "build.sh [SRC] [OUT]" >&2
    exit 2
fi
here=$(cd "$(dirname "$0")" && pwd)
src=${1:-$here/../../shared/docs/src}
out=${2:-$here/../target/differential}
command -v cargo >/dev/null || fail "cargo is not installed"

# The sources must be the very files that the port was made from.
[ -f "$src/jxl/src/api/color.rs" ] || fail "SRC has no jxl/src/api/color.rs: $src"
(cd "$src" && sha256sum --check --strict --quiet "$here/SHA256SUMS") || fail "the sources are not those of SHA256SUMS"

# Our part is copied anew each time, so that nothing old stays in OUT.
crates='jxl jxl_counted jxl_simd jxl_macros num_derive byteorder reported judge'
mkdir -p "$out"
for crate in $crates; do
    rm -rf "${out:?}/$crate"
    cp -R "$here/$crate" "$out/$crate"
done
cp "$here/Cargo.toml" "$out/Cargo.toml"

# The original's files, at their own paths, byte for byte.
while read -r _ file; do
    cp "$src/$file" "$out/$file"
    cmp "$src/$file" "$out/$file"
done <"$here/SHA256SUMS"

# The copy: one line more, the first of the function that makes a fixed number of a float. Without
# this line it must be the original.
line='    ::reported::add(value);'
original=$out/jxl/src/api/color.rs
copy=$out/jxl_counted/src/api/color.rs
cp -R "$out/jxl/src" "$out/jxl_counted/src"
awk -v line="$line" '
    { print }
    /^fn append_s15_fixed_16\(.*[( ]value: f32[,)].*\{$/ { print line }
' "$original" >"$copy"
[ "$(grep -cxF -e "$line" "$copy")" = 1 ] || fail "the copy does not have one line more"
grep -vxF -e "$line" "$copy" | cmp - "$original" || fail "the copy differs by more than its line"

cd "$out"
cargo build --release --offline --quiet --target-dir "$PWD/target"
(sha256sum --check --strict --quiet "$here/SHA256SUMS")
echo "built $PWD/target/release/judge"
