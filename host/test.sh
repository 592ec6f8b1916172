#!/bin/sh
# Tries the library as a user of C or C++ has it: installs it into a folder by `make install`, and builds all that follows from there.
# The calls (test.cpp), the C++ header (test_hpp.cpp), the stack that a call takes (stack.c), what the library defines and needs, the examples by
# pkg-config, the id of each profile against a plain MD5. Other programs open the profiles, some of them without an id, XYB with each intent and gray
# adapted to D50, where they are installed; what is skipped is said.
#
#   host/test.sh [OUT]
#
# OUT, for what is built and written, is target/host if left out.
set -eu

fail() {
    echo "host/test.sh: $*" >&2
    exit 1
}
skipped() { # WHAT PACKAGE
    echo "skipped: $1, install $2"
}

if [ $# -gt 1 ] || [ "${1-x}" = '' ]; then
    echo "host/test.sh [OUT]" >&2
    exit 2
fi
case ${1-} in
-*) echo "host/test.sh: no word $1; host/test.sh [OUT]" >&2 && exit 2 ;;
*' '*) fail "OUT has a space: pkg-config would take it apart" ;;
esac
for tool in make cc c++ nm md5sum; do
    command -v "$tool" >/dev/null || fail "$tool is not installed"
done

here=$(cd "$(dirname "$0")" && pwd)
top=$(cd "$here/.." && pwd)
out=${1:-$top/target/host}
mkdir -p "$out"
out=$(cd "$out" && pwd)
prefix=$out/prefix
rm -rf "$prefix"
rm -f "$out"/*.icc

make -C "$top" install PREFIX="$prefix" >"$out/install.log" || {
    tail -n 20 "$out/install.log" >&2
    fail "the library was not installed; $out/install.log has what make says"
}
library=$prefix/lib/libmerqyduk.a
echo "installed: merqyduk $(sed -n 's/^Version: //p' "$prefix/lib/pkgconfig/merqyduk.pc")"

# ---- the headers in each language, without a warning

warnings='-Wall -Wextra -Wshadow -Wconversion -Werror -pedantic'
for standard in c99 c11; do
    printf '#include <merqyduk.h>\n' | cc -std=$standard $warnings -I"$prefix/include" -fsyntax-only -x c - || fail "merqyduk.h in $standard"
done
for standard in c++11 c++17; do
    for header in merqyduk.h merqyduk.hpp; do
        printf '#include <%s>\n' $header | c++ -std=$standard $warnings -fno-exceptions -I"$prefix/include" -fsyntax-only -x c++ - ||
            fail "$header in $standard"
    done
done
echo "headers: no warning in C99, C11, C++11 and C++17"

# ---- what the library defines and needs

# Data that can be written, or names that are not ours, would break what merqyduk.h says of threads.
nm "$library" >"$out/symbols"
if grep -E ' [BbDdCGgSsVvWw] ' "$out/symbols"; then
    fail "the library has data that can be written (above)"
fi
if grep ' [A-TV-Z] ' "$out/symbols" | grep -v ' T merqyduk_'; then
    fail "the library defines a name that is not its own (above)"
fi
if grep ' U ' "$out/symbols" | grep -v -E ' U (memcpy|memset)$'; then
    fail "the library needs more than memcpy and memset (above)"
fi
echo "library: no data that can be written; needs$(sed -n 's/.* U / /p' "$out/symbols" | tr -d '\n')"

# ---- the calls

c++ -std=c++17 -O2 -Wall -Wextra -I"$prefix/include" "$here/test.cpp" "$library" -o "$out/test"
"$out/test" "$out"
for standard in c++11 c++17; do
    c++ -std=$standard -O2 -Wall -Wextra -I"$prefix/include" "$here/test_hpp.cpp" "$library" -o "$out/test_hpp"
    "$out/test_hpp"
done
cc -std=gnu11 -O2 -Wall -Wextra -I"$prefix/include" "$here/stack.c" "$library" -Wl,-z,now -o "$out/stack"
"$out/stack"

# ---- the examples, as a user builds them

if command -v pkg-config >/dev/null; then
    flags=$(PKG_CONFIG_PATH=$prefix/lib/pkgconfig pkg-config --cflags --libs merqyduk) || fail "pkg-config does not find merqyduk"
    for language in c cpp; do
        folder=$out/example-$language
        rm -rf "$folder"
        mkdir -p "$folder"
        case $language in
        c) compiler='cc -std=c99' ;;
        cpp) compiler='c++ -std=c++11' ;;
        esac
        # The flags and the compiler are several words each.
        $compiler -Wall -Wextra -o "$folder/profiles" "$top/example/profiles.$language" $flags || fail "example/profiles.$language was not built"
        (cd "$folder" && ./profiles >said) || fail "example/profiles.$language failed; $folder/said has what it said"
        cmp "$folder/srgb.icc" "$out/srgb.icc" || fail "example/profiles.$language writes another sRGB than the test"
        cmp "$folder/device.icc" "$out/srgb-device.icc" || fail "example/profiles.$language writes another sRGB for a device than the test"
        [ "$(grep -c ': refused 1, the curve is PQ or HLG$' "$folder/said")" -eq 1 ] || fail "example/profiles.$language shows no refusal"
        grep -q '^own.icc: 21 of its numbers were rounded$' "$folder/said" || fail "example/profiles.$language shows no count, or another"
    done
    cmp "$out/example-c/said" "$out/example-cpp/said" && cmp "$out/example-c/own.icc" "$out/example-cpp/own.icc" ||
        fail "the examples in C and in C++ differ"
    echo "examples: built by pkg-config, alike in C and C++:"
    cat "$out/example-c/said"
else
    skipped "the examples, which are built by pkg-config" pkg-config
fi

# ---- the profiles

# MD5 of a profile with bytes 44 to 47, 64 to 67 and 84 to 99 zero.
blanked_md5() {
    {
        head -c 44 "$1"
        head -c 4 /dev/zero
        tail -c +49 "$1" | head -c 16
        head -c 4 /dev/zero
        tail -c +69 "$1" | head -c 16
        head -c 16 /dev/zero
        tail -c +101 "$1"
    } | md5sum | cut -c 1-32
}

zeros=00000000000000000000000000000000
count=0 without=0
for profile in "$out"/*.icc; do
    id=$(tail -c +85 "$profile" | head -c 16 | od -An -tx1 | tr -d ' \n')
    case $profile in
    *-no-id.icc) expected=$zeros without=$((without + 1)) ;;
    *) expected=$(blanked_md5 "$profile") ;;
    esac
    [ "$id" = "$expected" ] || fail "the id of $profile is wrong"
    count=$((count + 1))
done
echo "ids: $((count - without)) of $count are the MD5 of their profile, $without are zeros"

# The XYB profiles: file, number of the intent, text, and what exiftool calls the intent.
cat >"$out/intents" <<'END'
xyb 0 XYB_Per Perceptual
xyb-relative 1 XYB_Rel Media-Relative Colorimetric
xyb-saturation 2 XYB_Sat Saturation
xyb-absolute 3 XYB_Abs ICC-Absolute Colorimetric
END

# The profiles that are there with a maker and a model too, and without an id.
kinds='srgb gray gray-adapted xyb'
if command -v exiftool >/dev/null; then
    for profile in "$out"/*.icc; do
        said=$(exiftool -s3 -validate "$profile") || fail "exiftool does not open $profile"
        [ "$said" = OK ] || fail "exiftool says of $profile: $said"
    done
    echo "exiftool: $count of $count are valid"
    # -n: the bytes as they are, and not what exiftool knows of a maker.
    for profile in $kinds; do
        said=$(exiftool -n -s3 -DeviceManufacturer -DeviceModel "$out/$profile-device.icc" | tr '\n' ' ')
        [ "$said" = 'ACME PLT1 ' ] || fail "exiftool shows another maker or model of $profile-device.icc: $said"
    done
    echo "exiftool: maker ACME and model PLT1 in $kinds"
    for profile in $kinds; do
        said=$(exiftool -s3 -ProfileID "$out/$profile-no-id.icc")
        [ "$said" = 0 ] || fail "exiftool shows an id of $profile-no-id.icc: $said"
    done
    echo "exiftool: id 0 without an id in $kinds"
    while read -r profile _ text intent; do
        said=$(exiftool -s3 -RenderingIntent -ProfileDescription "$out/$profile.icc")
        [ "$said" = "$(printf '%s\n%s' "$intent" "$text")" ] || fail "exiftool shows another intent or text of $profile.icc: $said"
    done <"$out/intents"
    echo "exiftool: intent and text as written in 4 of 4 for XYB"
    white=$(exiftool -s3 -MediaWhitePoint "$out/gray.icc") its_white=$(exiftool -s3 -MediaWhitePoint "$out/gray-adapted.icc")
    adaptation=$(exiftool -s3 -ChromaticAdaptation "$out/gray-adapted.icc")
    [ "$white" = '0.95045 1 1.08905' ] && [ "$its_white" = '0.9642 1 0.82491' ] || fail "exiftool shows another media white of gray: $white, adapted $its_white"
    [ -z "$(exiftool -s3 -ChromaticAdaptation "$out/gray.icc")" ] || fail "exiftool shows an adaptation of gray.icc"
    [ -n "$adaptation" ] && [ "$adaptation" = "$(exiftool -s3 -ChromaticAdaptation "$out/srgb.icc")" ] ||
        fail "exiftool shows another adaptation of gray-adapted.icc than of srgb.icc: $adaptation"
    echo "exiftool: media white $white for gray, $its_white for gray adapted, with the adaptation of sRGB: $adaptation"
else
    skipped "exiftool's view of the profiles" libimage-exiftool-perl
fi

# The white of each, as lcms2 has it in the PCS.
if command -v transicc >/dev/null; then
    for profile in srgb srgb-relative srgb-no-id own gray gray-adapted xyb xyb-relative; do
        case $profile in
        gray*) white=255 ;;
        # XYB's color of white, (0, Y, Y), scaled as the profile wants it.
        xyb*) white='90.2231 255 106.3738' ;;
        *) white='255 255 255' ;;
        esac
        said=$(echo "$white" | transicc -i "$out/$profile.icc" -o '*XYZ' 2>&1 | grep X=) || fail "transicc does not read $profile.icc"
        echo "lcms2: the white of $profile.icc is $said"
    done
else
    skipped "lcms2's view of the profiles" liblcms2-utils
fi
if printf '#include <lcms2.h>\n' | cc -fsyntax-only -x c - 2>/dev/null; then
    cc -std=gnu11 -O2 -Wall -Wextra "$top/viewers/lcms.c" -llcms2 -lm -o "$out/lcms"
    for profile in $kinds; do
        said=$("$out/lcms" device "$out/$profile-device.icc") || fail "lcms2 does not open $profile-device.icc"
        [ "$said" = "$(printf 'device\tACME\tPLT1')" ] || fail "lcms2 has another maker or model of $profile-device.icc: $said"
    done
    echo "lcms2: maker ACME and model PLT1 in $kinds"
    for profile in $kinds; do
        said=$("$out/lcms" id "$out/$profile-no-id.icc") || fail "lcms2 does not open $profile-no-id.icc"
        [ "$said" = "$(printf 'id\t%s' $zeros)" ] || fail "lcms2 has an id of $profile-no-id.icc: $said"
        said=$("$out/lcms" white "$out/$profile-no-id.icc") || fail "lcms2 has no white of $profile-no-id.icc, or another: $said"
        [ "$said" = "$("$out/lcms" white "$out/$profile.icc")" ] || fail "lcms2 has another white of $profile-no-id.icc than of $profile.icc"
    done
    echo "lcms2: zeros for an id, and white as with one, without an id in $kinds"
    while read -r profile number text _; do
        said=$("$out/lcms" intent "$out/$profile.icc") || fail "lcms2 does not open $profile.icc"
        [ "$said" = "$(printf 'intent\t%s\t%s' "$number" "$text")" ] || fail "lcms2 has another intent or text of $profile.icc: $said"
        said=$("$out/lcms" white "$out/$profile.icc") || fail "lcms2 has no white of $profile.icc, or another: $said"
        [ "$said" = "$("$out/lcms" white "$out/xyb.icc")" ] || fail "lcms2 has another white of $profile.icc than of xyb.icc"
    done <"$out/intents"
    echo "lcms2: intent and text as written in 4 of 4 for XYB, white as in the Perceptual one"
    said=$("$out/lcms" media "$out/gray.icc") || fail "lcms2 does not open gray.icc"
    [ "$said" = "$(printf 'media\t0.9505 1.0000 1.0891\tnone')" ] || fail "lcms2 has another media white of gray.icc, or an adaptation: $said"
    said=$("$out/lcms" media "$out/gray-adapted.icc") || fail "lcms2 does not open gray-adapted.icc"
    [ "$(echo "$said" | cut -f 2)" = '0.9642 1.0000 0.8249' ] && [ "$(echo "$said" | cut -f 3)" != none ] &&
        [ "$said" = "$("$out/lcms" media "$out/srgb.icc")" ] || fail "lcms2 has another media white or adaptation of gray-adapted.icc than of srgb.icc: $said"
    [ "$("$out/lcms" white "$out/gray-adapted.icc" | cut -f 3)" = '0.9642 1.0000 0.8249' ] || fail "lcms2 has another white of gray-adapted.icc with the intent Absolute"
    echo "lcms2: media white 0.9505 1.0000 1.0891 for gray, 0.9642 1.0000 0.8249 for gray adapted, in the PCS too with the intent Absolute"
else
    skipped "lcms2's view of maker, model, id and intent" liblcms2-dev
fi
echo "host/test.sh: passed"
