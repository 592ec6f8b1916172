#!/bin/sh
# Turns the text of a job into the job's bytes, runs the programs listing and profiles on it, and shows what came out.
#
#   jobs/run.sh [TEXT] [OUT]
#
# TEXT is jobs/example.txt if left out. OUT is target/jobs if left out: it takes the job, what the programs wrote (listing, profiles), and each
# profile as a file, 2-1.icc being the first entry of section 2; such files of an earlier run are removed.
# The programs are built by rt and copied to OUT/bin; where they stand elsewhere, BIN in the environment is their folder, and nothing is built.
set -eu

usage() {
    printf 'jobs/run.sh: %s\n  jobs/run.sh [TEXT] [OUT]\n' "$*" >&2
    exit 2
}
fail() {
    printf 'jobs/run.sh: %s\n' "$*" >&2
    exit 1
}

# A bad word is refused before anything is removed or built.
[ $# -le 2 ] || usage "no more than two words"
for word in "$@"; do
    case $word in
    -* | '') usage "no word '$word'" ;;
    esac
done
here=$(cd "$(dirname "$0")" && pwd)
top=$(cd "$here/.." && pwd)
text=${1:-$here/example.txt}
out=${2:-$top/target/jobs}
[ -f "$text" ] || usage "no file $text"
command -v python3 >/dev/null || fail "python3 is not installed: it turns the text into a job"
if [ -n "${BIN:-}" ]; then
    for program in listing profiles; do
        [ -x "$BIN/$program" ] || fail "BIN has no program $program: $BIN"
    done
fi

mkdir -p "$out" || fail "there is no folder for what is written: $out"
out=$(cd "$out" && pwd)
python3 "$here/make_job.py" "$text" >"$out/job" || fail "$text is not the text of a job"
rm -f "$out"/[123]-*.icc

if [ -z "${BIN:-}" ]; then
    BIN=$out/bin
    mkdir -p "$BIN"
    command -v rt >/dev/null || fail "rt is not installed: it builds listing and profiles (BIN names the folder of built ones)"
    echo "Building listing and profiles (what they stand on is proved first: minutes, where nothing is proved yet) ..." >&2
    for program in listing profiles; do
        # rt builds a program where it runs it. Of what rt says, only which crate is proved just now.
        rm -f "$out/built"
        { cd "$top/crates/$program" && rt run 2>&1 </dev/null && : >"$out/built"; } | tee "$out/build-$program.log" |
            awk '/^rt: chose/ { print; fflush() }' >&2
        [ -f "$out/built" ] || {
            grep -E 'error|not proved' "$out/build-$program.log" | cut -c 1-300 | head -n 20 >&2
            fail "$program was not built; $out/build-$program.log has what rt says"
        }
        cp "$top/crates/$program/out/$program" "$BIN/$program"
    done
fi

"$BIN/listing" <"$out/job" >"$out/listing" || fail "listing ended with status $?"
"$BIN/profiles" <"$out/job" >"$out/profiles" || fail "profiles ended with status $?"

echo "The job of $text has $(($(wc -c <"$out/job"))) bytes. listing says of it:"
cat "$out/listing"
python3 "$here/show.py" "$text" "$out/listing" "$out/profiles" "$out"
