#!/bin/sh
# Has other programs open a spread of our profiles, and says what each answered: lcms2 (its library by lcms.c, its programs transicc and linkicc),
# exiftool, Ghostscript and ImageMagick. A program that is not installed is skipped, and that is said.
#
#   viewers/run.sh [OUT]
#
# OUT, for the profiles and the answers, is target/viewers if left out; OUT/table.md is the table of docs/VIEWERS.md. Debian's packages:
# liblcms2-dev liblcms2-utils libimage-exiftool-perl ghostscript imagemagick. Fails where a program refuses a profile, where white is
# not white within 1 of 255, and where lcms2 has another media white than D50, or, for gray that is not adapted, than the white of the encoding.
# Each program must find fault with a profile that is cut to 200 bytes.
set -eu

fail() {
    echo "viewers/run.sh: $*" >&2
    exit 1
}
if [ $# -gt 1 ] || [ "${1-x}" = '' ]; then
    echo "viewers/run.sh [OUT]" >&2
    exit 2
fi
case ${1-} in
-*) echo "viewers/run.sh: no word $1; viewers/run.sh [OUT]" >&2 && exit 2 ;;
esac
here=$(cd "$(dirname "$0")" && pwd)
top=$(cd "$here/.." && pwd)
out=${1:-$top/target/viewers}
mkdir -p "$out"
out=$(cd "$out" && pwd)
rm -f "$out"/*.icc "$out/table.md"

make -C "$top" >"$out/make.log" || fail "the library was not built; $out/make.log has what make says"
c++ -std=c++11 -O2 -Wall -Wextra -I"$top/include" "$here/profiles.cpp" "$top/build/libmerqyduk.a" -o "$out/profiles"
"$out/profiles" "$out" >"$out/names"
head -c 200 "$out/srgb.icc" >"$out/cut.icc"

# ---- which programs there are

missing() { # WHAT PACKAGE
    echo "skipped: $1, install $2"
}
# The version of each, empty where it is not installed; convert is the name of ImageMagick's program.
lcms='' transicc='' exiftool='' gs='' magick='' convert=''
if printf '#include <lcms2.h>\n' | cc -fsyntax-only -x c - 2>/dev/null; then
    cc -std=gnu11 -O2 -Wall -Wextra "$here/lcms.c" -llcms2 -lm -o "$out/lcms"
    lcms=$("$out/lcms" version)
else
    missing "lcms2's library" liblcms2-dev
fi
if command -v transicc >/dev/null && command -v linkicc >/dev/null; then
    transicc=$(transicc 2>&1 | sed -n 's/.*\[LittleCMS \(.*\)\].*/\1/p' | head -n 1)
else
    missing "transicc and linkicc of lcms2" liblcms2-utils
fi
if command -v exiftool >/dev/null; then exiftool=$(exiftool -ver); else missing exiftool libimage-exiftool-perl; fi
if command -v gs >/dev/null; then gs=$(gs --version); else missing Ghostscript ghostscript; fi
# A program called convert need not be ImageMagick's.
for program in magick convert convert-im6.q16; do
    [ -n "$convert" ] || ! "$program" -version 2>/dev/null | grep -q '^Version: ImageMagick' || convert=$program
done
if [ -n "$convert" ]; then
    magick=$("$convert" -version | sed -n 's/^Version: ImageMagick \([^ ]*\).*/\1/p')
else
    missing ImageMagick imagemagick
fi

# ---- what each answers: a cell of the table, or a failure that says why in $out/said

# The device's numbers of white, 0 to 1: those of XYB are its color of white, (0, Y, Y), scaled as XYB profiles want it.
white() { # KIND
    case $1 in
    gray*) echo 1 ;;
    XYB) echo 0.353816 1 0.417152 ;;
    *) echo 1 1 1 ;;
    esac
}
# Three numbers, none below the least.
is_white() { # LEAST R G B
    [ $# -eq 4 ] && [ "$2" -ge "$1" ] && [ "$3" -ge "$1" ] && [ "$4" -ge "$1" ]
}

# What a profile must have in wtpt, and whether it has chad. The meaning begins with the white's x and y.
due_media() { # KIND MEANING
    case $1 in
    gray) echo "$2" | awk '{ printf "%.4f 1.0000 %.4f none", $1 / $2, (1 - $1 - $2) / $2 }' ;;
    *) echo '0.9642 1.0000 0.8249 chad' ;;
    esac
}
# Whether each of three numbers is within 0.002 of another: lcms2 takes a media white that is near to D50 for D50.
near() { # X Y Z X Y Z
    echo "$*" | awk '{ for (i = 1; i <= 3; i++) if ($i - $(i + 3) > 0.002 || $(i + 3) - $i > 0.002) exit 1 }'
}

by_lcms() { # PROFILE KIND MEANING
    "$out/lcms" tags "$1" >"$out/got" 2>"$out/said" || return 1
    unread=$(cut -f 3 "$out/got")
    "$out/lcms" media "$1" >"$out/got" 2>"$out/said" || return 1
    media=$(cut -f 2 "$out/got")
    [ "$media $(cut -f 3 "$out/got" | sed 's/^[-0-9].*/chad/')" = "$(due_media "$2" "$3")" ] || {
        cp "$out/got" "$out/said"
        return 1
    }
    "$out/lcms" white "$1" >"$out/got" 2>"$out/said" || return 1
    near $media $(cut -f 3 "$out/got") || {
        cp "$out/got" "$out/said"
        return 1
    }
    cells="${unread:-none} | $media | $(cut -f 2 "$out/got") | $(cut -f 3 "$out/got")"
    if [ -n "$3" ]; then
        # The meaning is several words.
        "$out/lcms" like "$1" $3 >"$out/got" 2>"$out/said" || return 1
        echo "$cells | $(cut -f 2 "$out/got")"
    else
        echo "$cells | -"
    fi
}
by_transicc() {
    white "$2" | awk '{ for (i = 1; i <= NF; i++) printf "%.4f ", 255 * $i; print "" }' | transicc -i "$1" -o '*sRGB' -t 1 >"$out/got" 2>"$out/said"
    set -- "$1" $(sed -n 's/^R=\([0-9.]*\) G=\([0-9.]*\) B=\([0-9.]*\).*/\1 \2 \3/p' "$out/got" "$out/said" | awk '{ printf "%.0f %.0f %.0f", $1, $2, $3 }')
    is_white 254 ${2-} ${3-} ${4-} || return 1
    rm -f "$out/link.icc"
    linkicc -o "$out/link.icc" "$1" '*sRGB' >"$out/said" 2>&1
    [ -s "$out/link.icc" ] || return 1
    echo "$2 $3 $4, link made"
}
by_exiftool() {
    [ "$(exiftool -s3 -validate "$1")" = OK ] || {
        exiftool -s3 -validate "$1" >"$out/said" 2>&1
        return 1
    }
    echo "OK, \`$(exiftool -s3 -ProfileDescription "$1" | sed 's/^\(.\{24\}\).*/\1.../')\`"
}
# A page of one color with the profile for its device space; what comes out is Ghostscript's own sRGB.
by_gs() {
    case $2 in
    gray*) space=Gray operator=setgray ;;
    *) space=RGB operator=setrgbcolor ;;
    esac
    echo "<< /PageSize [8 8] >> setpagedevice $(white "$2") $operator 0 0 8 8 rectfill showpage" >"$out/page.ps"
    gs -q -dNOPAUSE -dBATCH -dSAFER --permit-file-read="$out/" -sDEVICE=ppmraw -r72 -g8x8 "-sDefault${space}Profile=$1" \
        -sOutputFile="$out/page.ppm" "$out/page.ps" >"$out/said" 2>&1 || return 1
    [ ! -s "$out/said" ] || return 1
    set -- $(tail -c 3 "$out/page.ppm" | od -An -tu1)
    is_white 254 "$@" || return 1
    echo "$*"
}
# A picture of one pixel with the profile, changed to our own sRGB; 65535 is white, and 257 less is 1 of 255 less.
by_magick() {
    set -- "$1" "$2" $(white "$2")
    case $2 in
    gray*) color='gray(100%)' to=Gray ;;
    *) color=$(awk -v r="$3" -v g="$4" -v b="$5" 'BEGIN { printf "rgb(%.4f%%,%.4f%%,%.4f%%)", 100 * r, 100 * g, 100 * b }') to=sRGB ;;
    esac
    "$convert" -size 1x1 "xc:$color" -colorspace $to -profile "$1" -profile "$out/srgb.icc" -depth 16 -endian MSB rgb:"$out/pixel" >"$out/said" 2>&1 || return 1
    [ ! -s "$out/said" ] || return 1
    set -- $(od -An -tu2 --endian=big "$out/pixel")
    is_white 65278 "$@" || return 1
    echo "$*"
}

# The version and the cell of each program, by the names above.
programs=
[ -z "$lcms" ] || programs="$programs lcms"
[ -z "$transicc" ] || programs="$programs transicc"
[ -z "$exiftool" ] || programs="$programs exiftool"
[ -z "$gs" ] || programs="$programs gs"
[ -z "$convert" ] || programs="$programs magick"
[ -n "$programs" ] || fail "no program is installed that could open a profile"

for program in $programs; do
    : >"$out/said"
    if "by_$program" "$out/cut.icc" RGB '' >"$out/got" 2>&1; then
        fail "$program finds no fault with a profile that is cut"
    fi
done
echo "a profile cut to 200 bytes: refused by$programs"

{
    head='| profile | kind | bytes |' line='|---|---|---|'
    for program in $programs; do
        case $program in
        lcms) head="$head lcms2 $lcms: tags not read | media white | white, relative | white, absolute | difference to its own |" line="$line---|---|---|---|---|" ;;
        transicc) head="$head transicc, linkicc $transicc |" line="$line---|" ;;
        exiftool) head="$head exiftool $exiftool |" line="$line---|" ;;
        gs) head="$head Ghostscript $gs |" line="$line---|" ;;
        magick) head="$head ImageMagick $magick |" line="$line---|" ;;
        esac
    done
    printf '%s\n%s\n' "$head" "$line"
} >"$out/table.md"

tab=$(printf '\t')
count=0
while IFS=$tab read -r name kind meaning; do
    row="| \`$name\` | $kind | $(($(wc -c <"$out/$name.icc"))) |"
    for program in $programs; do
        : >"$out/said"
        cell=$("by_$program" "$out/$name.icc" "$kind" "$meaning") || {
            cat "$out/said" >&2
            fail "$program does not take $name.icc (above: what it said, if anything), or has another white"
        }
        row="$row $cell |"
    done
    printf '%s\n' "$row" >>"$out/table.md"
    count=$((count + 1))
done <"$out/names"
echo "$count profiles: opened by$programs; white is white in each"
cat "$out/table.md"

if [ -n "$lcms" ]; then
    "$out/lcms" srgb "$out/srgb.icc" >"$out/got" 2>"$out/said" || {
        cat "$out/got" "$out/said" >&2
        fail "our sRGB differs from lcms2's own by more than rounding"
    }
    awk -F '\t' '{ printf "our sRGB beside the own one of lcms2, %d colors: at most %s in Lab; changed with eight bits: %d of ours (at most by %d), %d of theirs (at most by %d)\n", $2, $3, $4, $5, $6, $7 }' "$out/got"
fi
