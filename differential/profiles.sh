#!/bin/sh
# Fetches profiles of other makers, from Debian's packages, for `compare.sh profiles`.
#
#   differential/profiles.sh [FOLDER]
#
# FOLDER takes them, target/profiles of the repository if left out. Needs apt-get, dpkg-deb and the
# network; without these any folder of .icc or .icm files serves as well.
set -eu

case $#${1-} in
0 | 1[!-]*) ;;
*)
    echo "profiles.sh [FOLDER]" >&2
    exit 2
    ;;
esac
for tool in apt-get dpkg-deb; do
    command -v "$tool" >/dev/null || {
        echo "profiles.sh: $tool is not installed" >&2
        exit 1
    }
done
here=$(cd "$(dirname "$0")" && pwd)
folder=${1:-$here/../target/profiles}
mkdir -p "$folder"
folder=$(cd "$folder" && pwd)
work=$(mktemp -d)
trap 'rm -rf "$work"' EXIT

cd "$work"
apt-get download icc-profiles-free libgs-common colord-data >&2 || {
    echo "profiles.sh: no packages could be fetched" >&2
    exit 1
}
for package in *.deb; do
    dpkg-deb -x "$package" files
done
# Names that differ by their folder only must not meet.
find files -type f \( -name '*.icc' -o -name '*.icm' \) | while read -r file; do
    cp "$file" "$folder/$(echo "${file#files/}" | tr / _)"
done
echo "profiles.sh: $(find "$folder" -type f | wc -l) profiles in $folder"
