#!/bin/sh
# Times the leaves, the reader beside the MD5 of its file, and the calls on segments beside the reader. Needs OpenSSL's headers (libssl-dev); run compare.sh
# before, which builds the libraries.
#
#   differential/bench.sh [OUT]
set -eu

fail() {
    echo "bench.sh: $*" >&2
    exit 1
}
if [ $# -gt 1 ]; then
    echo "bench.sh [OUT]" >&2
    exit 2
fi
here=$(cd "$(dirname "$0")" && pwd)
out=${1:-$here/../target/differential}
[ -f "$out/libraries/libleaves.a" ] || fail "no libraries/libleaves.a in $out: run compare.sh before"
printf '#include <openssl/md5.h>\n' | c++ -fsyntax-only -x c++ - 2>/dev/null || fail "no openssl/md5.h, install libssl-dev"
c++ -std=c++17 -O2 -Wno-deprecated-declarations "$here/bench/leaves.cpp" "$out/libraries/libleaves.a" -lcrypto -o "$out/leaves"
"$out/leaves"
c++ -std=c++11 -O2 -I"$here/../include" "$here/bench/reader.cpp" "$out/libraries/libhost_c.a" "$out/libraries/libleaves.a" -o "$out/reader"
"$out/reader"
c++ -std=c++11 -O2 -I"$here/../include" "$here/bench/segments.cpp" "$out/libraries/libhost_c.a" -o "$out/segments"
"$out/segments"
