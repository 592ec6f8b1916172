#!/bin/sh
# Puts our profiles into JPEG files by merqyduk_write_segments, for other programs to take out; and has these programs put them in, to be joined by
# merqyduk_join_segments. The bytes must be the profile's both ways, and the pictures keep their pixels. Prints a line for each check, then how many
# of how many are right; fails where one is not.
#
#   jpeg/run.sh [OUT]
#
# OUT, for all files, is target/jpeg if left out. Debian's packages, of which this installs none:
#   libjpeg-turbo-progs      cjpeg, djpeg and wrjpgcom, which are needed
#   libimage-exiftool-perl   exiftool
#   imagemagick              convert
#   liblcms2-utils           jpgicc and linkicc
# A program that is missing is skipped, and that is said.
set -eu

fail() {
    echo "jpeg/run.sh: $*" >&2
    exit 1
}
if [ $# -gt 1 ] || [ "${1-x}" = '' ]; then
    echo "jpeg/run.sh [OUT]" >&2
    exit 2
fi
case ${1-} in
-*) echo "jpeg/run.sh: no word $1; jpeg/run.sh [OUT]" >&2 && exit 2 ;;
esac
here=$(cd "$(dirname "$0")" && pwd)
top=$(cd "$here/.." && pwd)
out=${1:-$top/target/jpeg}

# ---- which programs there are

for tool in cjpeg djpeg wrjpgcom; do
    command -v $tool >/dev/null || fail "$tool is not installed; its package is libjpeg-turbo-progs"
done
# Those that take a profile out of a JPEG file, and those that put one in.
takers=djpeg putters=cjpeg
missing() { # WHAT PACKAGE
    echo "skipped: $1, install $2"
}
turbo=$(djpeg -version 2>&1 | sed -n 's/.*libjpeg-turbo version \([^ ]*\).*/\1/p')
echo "cjpeg and djpeg: libjpeg-turbo ${turbo:-of a version that it does not say}"
if command -v exiftool >/dev/null; then
    takers="$takers exiftool" putters="$putters exiftool"
    echo "exiftool: $(exiftool -ver)"
else
    missing exiftool libimage-exiftool-perl
fi
# A program called convert need not be ImageMagick's.
convert=
for program in magick convert convert-im6.q16; do
    [ -n "$convert" ] || ! "$program" -version 2>/dev/null | grep -q '^Version: ImageMagick' || convert=$program
done
if [ -n "$convert" ]; then
    takers="$takers magick" putters="$putters magick"
    echo "magick: $("$convert" -version | sed -n 's/^Version: \(ImageMagick [^ ]*\).*/\1/p')"
else
    missing ImageMagick imagemagick
fi
if command -v jpgicc >/dev/null && command -v linkicc >/dev/null; then
    takers="$takers jpgicc" putters="$putters jpgicc"
    echo "jpgicc: $(jpgicc 2>&1 | sed -n 's/.*\[LittleCMS \(.*\)\].*/lcms2 \1/p' | head -n 1)"
else
    missing "jpgicc and linkicc of lcms2" liblcms2-utils
fi

# ---- profiles and pictures

mkdir -p "$out"
out=$(cd "$out" && pwd)
rm -f "$out"/*.icc "$out"/*.jpg
make -C "$top" >"$out/make.log" || fail "the library was not built; $out/make.log has what make says"
c++ -std=c++11 -O2 -Wall -Wextra -Werror -I"$top/include" "$here/segments.cpp" "$top/build/libmerqyduk.a" -o "$out/segments"
"$out/segments" profiles "$out"
# The comment makes a segment that is not a profile's.
for picture in gray rgb; do
    "$out/segments" picture $picture >"$out/$picture.pnm"
    cjpeg -quality 90 "$out/$picture.pnm" >"$out/plain.jpg"
    wrjpgcom -comment 'a proof' "$out/plain.jpg" >"$out/$picture.jpg"
    djpeg "$out/$picture.jpg" >"$out/$picture.pixels"
done
picture_of() { # KIND
    case $1 in
    gray*) echo gray ;;
    *) echo rgb ;;
    esac
}

# ---- a check: what it is called, and the command that must succeed

tried=0 passed=0
check() { # NAME COMMAND...
    name=$1
    shift
    tried=$((tried + 1))
    if "$@" >"$out/said" 2>&1; then
        passed=$((passed + 1))
        echo "ok: $name"
    else
        echo "FAILED: $name"
        sed 's/^/    /' "$out/said"
    fi
}

# ---- a profile taken out of a JPEG file: its bytes are the profile's

take_by_us() { # JPEG OUT
    "$out/segments" take "$1" >"$2"
}
take_by_djpeg() {
    djpeg -icc "$2" "$1" >"$out/pixels"
}
take_by_exiftool() {
    exiftool -b -ICC_Profile "$1" >"$2"
}
take_by_magick() {
    "$convert" "$1" "icc:$2"
}
take_by_jpgicc() {
    jpgicc "-s$2" "$1" "$out/changed.jpg"
}
taken() { # PROGRAM JPEG PROFILE
    rm -f "$out/taken.icc"
    "take_by_$1" "$2" "$out/taken.icc" && cmp "$out/taken.icc" "$3"
}
same_pixels() { # JPEG PICTURE
    djpeg "$1" >"$out/pixels" && cmp "$out/pixels" "$out/$2.pixels"
}

put_by_us() { # KIND SIZE PLACE ORDER
    picture=$(picture_of "$1")
    "$out/segments" put "$out/$1.icc" "$2" "$3" "$4" "$out/$picture.jpg" >"$out/ours.jpg" || fail "$1 was not put into a JPEG file"
    what="$1 by $2 bytes, $3, $4"
    check "$what: the picture has the same pixels" same_pixels "$out/ours.jpg" "$picture"
    for program in us $takers; do
        # ImageMagick 6 joins segments as they stand, whatever their sequence numbers.
        case $program-$4 in
        magick-reversed) continue ;;
        esac
        check "$what: taken out by $program" taken "$program" "$out/ours.jpg" "$out/$1.icc"
    done
}

kinds='gray gray-adapted rgb xyb xyb-relative'
for kind in $kinds; do
    third=$(($(wc -c <"$out/$kind.icc") / 3))
    put_by_us $kind 65519 start forward
    put_by_us $kind 65519 app0 forward
    put_by_us $kind 200 start forward
    put_by_us $kind 200 app0 reversed
    put_by_us $kind $third apart forward
    put_by_us $kind $third start reversed
    put_by_us $kind 3 app0 forward
    put_by_us $kind 3 apart reversed
done

# jpgicc changes the colors by the profile in the JPEG file as it does by the profile's file.
used() { # KIND
    jpgicc "-i$out/$1.icc" "$out/$(picture_of "$1").jpg" "$out/by-file.jpg" || return 1
    "$out/segments" put "$out/$1.icc" 100 app0 reversed "$out/$(picture_of "$1").jpg" >"$out/ours.jpg" || return 1
    jpgicc "$out/ours.jpg" "$out/by-segments.jpg" || return 1
    djpeg "$out/by-file.jpg" >"$out/by-file" && djpeg "$out/by-segments.jpg" >"$out/by-segments" || return 1
    cmp "$out/by-file" "$out/by-segments" && ! cmp -s "$out/by-file" "$out/$(picture_of "$1").pixels"
}
case $takers in
*jpgicc*) for kind in $kinds; do check "$kind: jpgicc goes by it" used $kind; done ;;
esac

# ---- a profile put into a JPEG file by other programs

put_by_cjpeg() { # PROFILE PICTURE OUT
    cjpeg -icc "$1" "$out/$2.pnm" >"$3"
}
put_by_exiftool() {
    exiftool -q "-icc_profile<=$1" -o "$3" "$out/$2.jpg"
}
put_by_magick() {
    "$convert" "$out/$2.pnm" -profile "$1" "$3"
}
# The profile is that of the colors before too, so that jpgicc takes a gray picture.
put_by_jpgicc() {
    jpgicc "-i$1" "-o$1" -e "$out/$2.jpg" "$3"
}
joined() { # PROGRAM PROFILE PICTURE
    rm -f "$out/theirs.jpg"
    "put_by_$1" "$2" "$3" "$out/theirs.jpg" && taken us "$out/theirs.jpg" "$2"
}

for kind in $kinds; do
    for program in $putters; do
        check "$kind: put in by $program, joined by us" joined "$program" "$out/$kind.icc" "$(picture_of $kind)"
    done
done

# ---- what is not ours is refused by the reader's number, and not as segments

# The number of segments and of the refusal, and no bytes.
refused() { # JPEG SEGMENTS NUMBER
    ! "$out/segments" take "$1" >"$out/taken.icc" 2>"$out/answer" || return 1
    cat "$out/answer"
    grep -q "^segments $2 refused $3:" "$out/answer" && [ ! -s "$out/taken.icc" ]
}
foreign() { # PROGRAM PROFILE SEGMENTS NUMBER
    rm -f "$out/theirs.jpg"
    "put_by_$1" "$2" rgb "$out/theirs.jpg" && refused "$out/theirs.jpg" "$3" "$4"
}

check "no profile: refused 54" refused "$out/rgb.jpg" 0 54
"$out/segments" long "$out/rgb.icc" 200000 >"$out/long.icc"
for program in $putters; do
    check "200,000 bytes in 4 segments by $program: refused 25" foreign "$program" "$out/long.icc" 4 25
done
# A profile that lcms2 makes, of 216,436 bytes. ImageMagick does not put in a device link.
device_link() {
    linkicc -n33 -o "$out/link.icc" '*sRGB' '*Lab' && foreign cjpeg "$out/link.icc" 4 23
}
case $putters in
*jpgicc*) check "a device link in 4 segments by cjpeg: refused 23" device_link ;;
esac

echo "$passed of $tried"
[ "$passed" -eq "$tried" ]
