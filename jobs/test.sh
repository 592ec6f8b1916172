#!/bin/sh
# Tries make_job.py and run.sh, and the programs listing and profiles on odd inputs and outputs. Ends with `N of N`, and fails if one differs.
#
#   jobs/test.sh [OUT]
#
# OUT, for what the tests write, is target/jobs-test if left out. The programs are built by run.sh; where they stand elsewhere, BIN in the environment
# is their folder. The MD5s of profiles are those of what the Rust writes for the same encodings. XYB with another intent than Perceptual it refuses:
# those profiles are its Perceptual one with the intent in byte 67, the intent's name in the text, and the id that this then has.
set -u
LC_ALL=C
export LC_ALL

if [ $# -gt 1 ] || [ "${1-x}" = '' ]; then
    echo "jobs/test.sh [OUT]" >&2
    exit 2
fi
case ${1-} in
-*) echo "jobs/test.sh: no word $1; jobs/test.sh [OUT]" >&2 && exit 2 ;;
esac
for tool in python3 timeout md5sum mkfifo; do
    command -v "$tool" >/dev/null || {
        echo "jobs/test.sh: $tool is not installed" >&2
        exit 1
    }
done
here=$(cd "$(dirname "$0")" && pwd)
top=$(cd "$here/.." && pwd)
out=${1:-$top/target/jobs-test}
mkdir -p "$out" || exit 1
# Left by a run that was stopped.
rm -f "$out/pipe" "$out/go"
tried=0
failed=0

# Counts one test, which held if the command before this call succeeded.
held() { # WHAT
    before=$?
    tried=$((tried + 1))
    if [ "$before" -ne 0 ]; then
        failed=$((failed + 1))
        printf 'FAILED: %s\n' "$1"
    fi
}

# The bytes of a file in hexadecimal.
hex() { od -An -v -tx1 "$1" | tr -d ' \n'; }

# So many bytes ff.
ff() { head -c "$1" /dev/zero | tr '\000' '\377'; }

# Whether a file has so many bytes and this MD5.
is_file() { # FILE BYTES MD5
    [ "$(($(wc -c <"$1")))" -eq "$2" ] && [ "$(md5sum <"$1" | cut -c 1-32)" = "$3" ]
}

# ---- make_job.py

# The job of 44 bytes: 00 01, the entry of sRGB, 01 01.
cat >"$out/two.txt" <<'END'
xyb intent=Relative
rgb white=D65 primaries=SRGB curve=SRGB intent=Perceptual
END
python3 "$here/make_job.py" "$out/two.txt" >"$out/two.job"
zeros=0000000000000000
[ "$(hex "$out/two.job")" = "000100${zeros}00${zeros}${zeros}${zeros}0200000000000101" ]
held "make_job.py: the job of 44 bytes"
python3 "$here/make_job.py" <"$out/two.txt" | cmp - "$out/two.job"
held "make_job.py: a text on standard input"

# Floats, an infinity, no number, a byte as it stands. The order of fields and spaces beside commas make no difference.
cat >"$out/floats.txt" <<'END'
gray  intent=Absolute curve=inf white = 0.5, -2
xyb   intent=byte:255   # without meaning
gray  white=E curve=nan intent=Saturation
END
python3 "$here/make_job.py" "$out/floats.txt" >"$out/floats.job"
[ "$(hex "$out/floats.job")" = "02033f000000c0000000067f8000000301${zeros}067fc00000020001ff" ]
held "make_job.py: floats and bytes"

# A text that is wrong: the line is named once, nothing is written, and the status is 1.
wrong() { # LINE
    printf '# a comment\n%s\n' "$1" >"$out/wrong.txt"
    python3 "$here/make_job.py" "$out/wrong.txt" >"$out/got" 2>"$out/said"
    [ $? -eq 1 ] && [ ! -s "$out/got" ] && [ "$(grep -c '' "$out/said")" -eq 1 ] && grep -q '/wrong.txt, line 2: ' "$out/said"
    held "make_job.py on: $1"
}
wrong 'grey white=D65 curve=SRGB intent=Perceptual'
wrong 'gray white=D66 curve=SRGB intent=Perceptual'
wrong 'gray white=D65 curve=sRGB intent=Perceptual'
wrong 'gray white=D65 curve=SRGB intent=Perceptual primaries=SRGB'
wrong 'gray white=D65 curve=SRGB'
wrong 'gray white=D65 curve=SRGB curve=SRGB intent=Perceptual'
wrong 'gray white=0.3127 curve=SRGB intent=Perceptual'
wrong 'gray white=0.3127,x curve=SRGB intent=Perceptual'
wrong 'gray white=D65 curve=1e39 intent=Perceptual'
wrong 'gray white=D65 curve=1e400 intent=Perceptual'
wrong 'rgb white=D65 primaries=0.64,0.33,0.3,0.6,0.15 curve=SRGB intent=Perceptual'
wrong 'xyb intent=4'
wrong 'xyb intent=byte:256'
wrong 'xyb Perceptual'
awk 'BEGIN { for (i = 1; i <= 256; i++) print "xyb intent=Perceptual" }' >"$out/wrong.txt"
python3 "$here/make_job.py" "$out/wrong.txt" >"$out/got" 2>"$out/said"
[ $? -eq 1 ] && [ ! -s "$out/got" ] && [ "$(cat "$out/said")" = "$out/wrong.txt, line 256: a job has at most 255 entries of xyb" ]
held "make_job.py on 256 entries"

# ---- run.sh, which builds the programs

# Words that are wrong: said, and nothing is built or written.
bad_words() { # BIN WORDS
    bin=$1
    shift
    BIN=$bin "$here/run.sh" "$@" >"$out/got" 2>"$out/said"
    [ $? -ne 0 ] && [ ! -s "$out/got" ] && grep -q '^jobs/run.sh: ' "$out/said" && [ ! -e "$out/none" ]
    held "run.sh on the words: $*"
}
bad_words '' -h "$out/none"
bad_words '' "$out/no-such-text" "$out/none"
bad_words '' "$out" "$out/none"
bad_words '' "$out/two.txt" "$out/none" more
bad_words "$out/no-such-folder" "$out/two.txt" "$out/none"

"$here/run.sh" "$out/two.txt" "$out/two" >"$out/two.out" || {
    echo "run.sh failed (see above and $out/two.out), so the programs were not tried"
    exit 1
}
BIN=${BIN:-$out/two/bin}
is_file "$out/two/2-1.icc" 504 f5a0eb4fe51f41b1b7f67928ca8796bf && is_file "$out/two/3-1.icc" 720 e6141b97b55a17e837e3aa1c5b81a742 &&
    grep -q '^2 rgb  *1  *2  *504  02b3f6a3cc2f584479617b0037673aa1  2-1.icc$' "$out/two.out" &&
    grep -q '^3 xyb  *1  *1  *720  3ad7bbf0b07c0a42c9f933dfaf91e3e9  3-1.icc$' "$out/two.out" &&
    grep -q '^Profiles: 2, of 1224 bytes together, as the listing says. Refused: 0.$' "$out/two.out"
held "run.sh on the job of 44 bytes"
printf 'gray white=D65 curve=HLG intent=Relative\nxyb intent=Perceptual\n' >"$out/one.txt"
"$here/run.sh" "$out/one.txt" "$out/one" >"$out/got" && [ ! -e "$out/one/1-1.icc" ] &&
    is_file "$out/one/3-1.icc" 720 eeb213473ee84d642eeeb880d911377c &&
    grep -q '^1 gray  *1  *1  *-  refused 1: the curve is PQ or HLG$' "$out/got" &&
    grep -q '^Profiles: 1, of 720 bytes together, as the listing says. Refused: 1.$' "$out/got"
held "run.sh on a refused entry"
echo 'xyb intent=byte:4' >"$out/bad.txt"
"$here/run.sh" "$out/bad.txt" "$out/bad" >"$out/got" 2>"$out/said"
[ $? -eq 1 ] && grep -q '^The job is refused as a whole, 43: ' "$out/said"
held "run.sh on a bad job"

# ---- the programs

# Runs a program on the standard input that this is called with. It must write what $out/want holds, nothing to standard error, and end with
# status 0 within a minute.
answers() { # PROGRAM WHAT
    timeout 60 "$BIN/$1" >"$out/got" 2>"$out/said"
    status=$?
    [ "$status" -eq 0 ] && [ ! -s "$out/said" ] && cmp "$out/got" "$out/want"
    held "$1: $2 (status $status, $(($(wc -c <"$out/got"))) bytes written)"
}

# A job that is accepted: its listing is in $out/want, its profiles together have so many bytes and this MD5.
accepted() { # WHAT JOB BYTES MD5
    answers listing "$1" <"$2"
    timeout 60 "$BIN/profiles" <"$2" >"$out/got" 2>"$out/said" && [ ! -s "$out/said" ] && is_file "$out/got" "$3" "$4"
    held "profiles: $1 ($(($(wc -c <"$out/got"))) bytes written)"
}

# A job that is refused as a whole.
refused() { # NUMBER WHAT INPUT
    echo "job refused $1" >"$out/want"
    answers listing "$2" <"$3"
    : >"$out/want"
    answers profiles "$2" <"$3"
}

printf 'profiles 2\n2 1 504\n3 1 720\n' >"$out/want"
accepted "the job of 44 bytes" "$out/two.job" 1224 4590f18dc689cdc5b4bc51881952db04

# The same with every unused float made of bytes ff.
{
    printf '\000\001\000' && ff 8 && printf '\000' && ff 24 && printf '\002' && ff 4 && printf '\000\001\001'
} >"$out/unused.job"
accepted "unused floats" "$out/unused.job" 1224 4590f18dc689cdc5b4bc51881952db04

# The same, coming in two pieces.
mkfifo "$out/pipe"
pieces() {
    head -c 7 "$out/two.job"
    sleep 1
    tail -c +8 "$out/two.job"
}
pieces >"$out/pipe" &
answers listing "a job in two pieces" <"$out/pipe"
wait
cat "$out/two/2-1.icc" "$out/two/3-1.icc" >"$out/want"
pieces >"$out/pipe" &
answers profiles "a job in two pieces" <"$out/pipe"
wait

# A job without entries.
printf '\000\000\000' >"$out/none.job"
echo 'profiles 0' >"$out/want"
accepted "a job without entries" "$out/none.job" 0 d41d8cd98f00b204e9800998ecf8427e

# Accepted entries between refused ones; each refusal that an entry can meet.
cat >"$out/mixed.txt" <<'END'
rgb   white=D65 primaries=BT2100 curve=PQ intent=Relative                     # 1
rgb   white=0,1 primaries=SRGB curve=SRGB intent=Perceptual
rgb   white=0.3,0 primaries=SRGB curve=SRGB intent=Perceptual                 # 4
rgb   white=0.3,nan primaries=SRGB curve=SRGB intent=Perceptual               # 4
rgb   white=0.0653457642,0.215900436 primaries=SRGB curve=SRGB intent=Relative  # 5
rgb   white=D65 primaries=0.6,0.3,0.6,0.3,0.15,0.06 curve=SRGB intent=Relative  # 6
rgb   white=D65 primaries=0.6,0.3,0.3,nan,0.15,0.06 curve=SRGB intent=Relative  # 7
rgb   white=DCI primaries=P3 curve=DCI intent=Absolute
rgb   white=0.3127,0.3290 primaries=SRGB curve=SRGB intent=Perceptual
rgb   white=D65 primaries=SRGB curve=0 intent=Perceptual                      # 8
rgb   white=D65 primaries=SRGB curve=inf intent=Perceptual
gray  white=E curve=HLG intent=Relative                                       # 1
gray  white=0.3,0 curve=SRGB intent=Relative                                  # 3
gray  white=0,1e-12 curve=SRGB intent=Relative                                # 7
gray  white=nan,0.3 curve=SRGB intent=Relative                                # 7
gray  white=E curve=BT709 intent=Saturation
gray  white=D65 curve=nan intent=Relative                                     # 8
xyb   intent=Saturation
xyb   intent=Perceptual
xyb   intent=Absolute
xyb   intent=Relative
END
python3 "$here/make_job.py" "$out/mixed.txt" >"$out/mixed.job"
cat >"$out/want" <<'END'
profiles 21
1 1 refused 1
1 2 refused 3
1 3 refused 7
1 4 refused 7
1 5 328
1 6 refused 8
2 1 refused 1
2 2 544
2 3 refused 4
2 4 refused 4
2 5 refused 5
2 6 refused 6
2 7 refused 7
2 8 536
2 9 544
2 10 refused 8
2 11 496
3 1 720
3 2 720
3 3 720
3 4 720
END
accepted "accepted and refused entries" "$out/mixed.job" 5328 7941295ce6e4000ec502528d3498ca19

# The fullest job, 765 entries, no two gray or RGB ones alike.
awk 'BEGIN {
    split("Perceptual Relative Saturation Absolute", intents)
    for (i = 1; i <= 255; i++) {
        printf "rgb white=D65 primaries=SRGB curve=%.8f intent=Perceptual\n", i / 256
        printf "xyb intent=%s\n", intents[1 + i % 4]
        printf "gray white=D65 curve=%.8f intent=Perceptual\n", i / 256
    }
}' >"$out/full.txt"
python3 "$here/make_job.py" "$out/full.txt" >"$out/full.job"
[ "$(($(wc -c <"$out/full.job")))" -eq 14283 ]
held "make_job.py: the fullest job has 14,283 bytes"
awk 'BEGIN {
    print "profiles 765"
    for (i = 1; i <= 255; i++) print 1, i, 324
    for (i = 1; i <= 255; i++) print 2, i, 508
    for (i = 1; i <= 255; i++) print 3, i, 720
}' >"$out/want"
accepted "the fullest job" "$out/full.job" 395760 b2e6882aef1bd4574042f0f59a6ab340

# ---- jobs that are refused

# Inputs that cannot be read: none, a directory, a closed one.
refused 41 "no input" /dev/null
refused 41 "a directory as input" /
echo 'job refused 41' >"$out/want"
answers listing "standard input closed" <&-
: >"$out/want"
answers profiles "standard input closed" <&-

# A job that is cut at any place ends early.
early=0
n=0
while [ "$n" -lt 44 ]; do
    head -c "$n" "$out/two.job" >"$out/cut.job"
    [ "$("$BIN/listing" <"$out/cut.job")" = "job refused 41" ] && [ "$("$BIN/profiles" <"$out/cut.job" | wc -c)" -eq 0 ] && early=$((early + 1))
    n=$((n + 1))
done
[ "$early" -eq 44 ]
held "the job of 44 bytes, cut short: $early of 44 end early"

# 41 and 42 are tested over the whole job before 43: the XYB entry without meaning stands before what is missing or left.
printf '\000\000\002\377\000' >"$out/no-meaning.job"
refused 43 "an intent without meaning" "$out/no-meaning.job"
printf '\000\000\002\377' >"$out/early.job"
refused 41 "an intent without meaning, and the job ends early" "$out/early.job"
printf '\000\000\002\377\000\000' >"$out/left.job"
refused 42 "an intent without meaning, and bytes left" "$out/left.job"
# The first byte of each field that has no meaning.
for line in 'gray white=byte:4 curve=SRGB intent=Relative' 'rgb white=D65 primaries=byte:4 curve=SRGB intent=Relative' \
    'gray white=D65 curve=byte:7 intent=Relative' 'rgb white=D65 primaries=SRGB curve=SRGB intent=byte:4' 'xyb intent=byte:4'; do
    echo "$line" | python3 "$here/make_job.py" >"$out/byte.job"
    refused 43 "$line" "$out/byte.job"
done
# Of bytes ff, the longest job has entries without meaning, a byte less ends early, and whatever is longer has bytes left.
ff 14282 >"$out/ff.job"
refused 41 "14,282 bytes ff" "$out/ff.job"
ff 14283 >"$out/ff.job"
refused 43 "14,283 bytes ff" "$out/ff.job"
ff 14284 >"$out/ff.job"
refused 42 "14,284 bytes ff" "$out/ff.job"
ff 100000 >"$out/ff.job"
refused 42 "100,000 bytes ff" "$out/ff.job"
head -c 100000 /dev/zero >"$out/zero.job"
refused 42 "100,000 bytes 0" "$out/zero.job"
{
    cat "$out/full.job"
    printf '\000'
} >"$out/longer.job"
refused 42 "the fullest job and a byte more" "$out/longer.job"

# ---- outputs that cannot be written

# A program that could not write ends with status 1, and standard error has a line that says why.
unwritten() { # PROGRAM WHAT STATUS
    [ "$3" -eq 1 ] && [ "$(grep -c '' "$out/said")" -eq 1 ] && grep -q '^Error: ' "$out/said"
    held "$1: $2 (status $3)"
}
for program in listing profiles; do
    timeout 60 "$BIN/$program" <"$out/full.job" >/dev/full 2>"$out/said"
    unwritten "$program" "a full device as output" $?
    timeout 60 "$BIN/$program" <"$out/full.job" >&- 2>"$out/said"
    unwritten "$program" "standard output closed" $?

    # A pipe whose reader has closed it before the program starts.
    mkfifo "$out/go"
    {
        read -r _ <"$out/go"
        timeout 60 "$BIN/$program" <"$out/full.job" 2>"$out/said"
        echo $? >"$out/status"
    } | {
        exec <&-
        echo >"$out/go"
    }
    rm "$out/go"
    unwritten "$program" "a closed pipe as output" "$(cat "$out/status")"
done

echo "$((tried - failed)) of $tried"
[ "$failed" -eq 0 ]
