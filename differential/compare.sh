#!/bin/sh
# Builds the port as static libraries and tries it against the original.
#
#   differential/compare.sh leaves|validate|writer|counts|jobs|reader|typed|segments COUNT [SEED]
#   differential/compare.sh profiles FOLDER
#   differential/compare.sh floats
#   differential/compare.sh bench
#
# SRC and OUT in the environment are the folders of build.sh, which this runs first. What rt has
# proved and kept in the repository is not proved again.
set -eu

usage() {
    echo "compare.sh: $1" >&2
    sed -n 's/^#   differential\//  /p' "$0" >&2
    exit 2
}

# A bad word is refused before anything is built.
is_number() {
    case $1 in
    '' | *[!0-9]* | ????????????????*) return 1 ;;
    esac
}
case ${1-} in
leaves | validate | writer | counts | jobs | reader | typed | segments)
    [ $# -eq 2 ] || [ $# -eq 3 ] || usage "$1 takes COUNT and perhaps SEED"
    is_number "$2" && [ "$2" -gt 0 ] || usage "COUNT is a number above 0, not '$2'"
    is_number "${3-1}" || usage "SEED is a number, not '$3'"
    ;;
profiles)
    [ $# -eq 2 ] || usage "profiles takes a folder"
    [ -d "$2" ] || usage "no folder $2"
    folder=$(cd "$2" && pwd)
    set -- profiles "$folder"
    ;;
floats | bench) [ $# -eq 1 ] || usage "$1 takes no other word" ;;
*) usage "no word '${1-}'" ;;
esac

for tool in rt cargo; do
    command -v "$tool" >/dev/null || {
        echo "compare.sh: $tool is not installed" >&2
        exit 1
    }
done

here=$(cd "$(dirname "$0")" && pwd)
src=${SRC:-$here/../../shared/docs/src}
out=${OUT:-$here/../target/differential}

echo "compare.sh: building the judge" >&2
"$here/build.sh" "$src" "$out"
out=$(cd "$out" && pwd)

# The port's libraries are built again where a file of theirs has changed.
top=$(cd "$here/.." && pwd)
files=$(cd "$top" && find crates.txt crates differential/leaves -path 'crates/*/out' -prune -o -type f -print | LC_ALL=C sort | xargs sha256sum)
sum=$(printf '%s\n' "$(rt version)" "$files" | sha256sum)
libraries=$out/libraries
if [ "$sum" = "$(cat "$libraries/sum" 2>/dev/null)" ]; then
    echo "compare.sh: the port's libraries are as they were" >&2
else
    rm -rf "$libraries"
    mkdir -p "$libraries"
    room=$(mktemp -d)
    trap 'rm -rf "$room"' EXIT

    # Builds a static library. Of what rt says, only which crate is proved just now.
    build() { # FOLDER CRATE
        echo "compare.sh: building lib$2.a; $libraries/$2.log has what rt says" >&2
        { cd "$1/crates/$2" && rt lib 2>&1; } | tee "$libraries/$2.log" | awk '/^rt: chose/ { print; fflush() }' >&2
        cp "$1/crates/$2/out/lib$2.a" "$libraries" || {
            grep -E 'error|not proved' "$libraries/$2.log" | cut -c 1-300 | head -n 20 >&2
            echo "compare.sh: lib$2.a was not built; $libraries/$2.log has what rt says" >&2
            exit 1
        }
    }
    rm -f "$top/crates/host_c/out/libhost_c.a"
    build "$top" host_c

    # A copy of the crates, with one more that exports the leaves to C, stands outside of the repository, where rt ci wants no other crates. What rt has
    # kept of a crate that is proved goes along, and is not proved again.
    (cd "$top" && {
        find crates.txt crates -path 'crates/*/out' -prune -o -path 'crates/*/must-fail' -prune -o -path 'crates/*/data' -prune -o -type f -print
        find crates -path 'crates/*/out/rlib/*' -type f -print
    } | tar -cf - -T -) | tar -xf - -C "$room"
    mkdir -p "$room/crates/leaves/src"
    cp "$here/leaves/lib.rt.in" "$room/crates/leaves/src/lib.rt"
    echo "leaves staticlib: floats buffer refusals words numbers md5_digest linalg matrix_inverse decimal text color_encoding encoding_codes white_point icc_matrix adaptation colorimetry validate job job_output reading reader" >>"$room/crates.txt"
    build "$room" leaves
    printf '%s\n' "$sum" >"$libraries/sum"
fi

# Counts have a program of their own.
program=compare
if [ "$1" = counts ]; then
    program=counts
    shift
fi
echo "compare.sh: building the comparison" >&2
rm -rf "${out:?}/$program"
cp -R "$here/$program" "$out/$program"
cd "$out/$program"
PORT_LIBRARIES=$libraries cargo build --release --offline --quiet --target-dir "$out/target"
"$out/target/release/$program" "$@"
