#!/bin/sh
# The program `divisions` searches copies of the sources that crates/divisions/args names: rt lends a program its own data/ alone and follows no link.
#
#   divisions/copies.sh check    compares each copy with its source; the gate begins with it
#   divisions/copies.sh make     copies the sources again
set -eu
cd "$(dirname "$0")/../crates/divisions"
ended=0
while read -r name; do
    source=../$name.rt copy=data/$name
    case ${1:-}:$name in
    check:trial | make:trial) ;;
    check:*) cmp "$source" "$copy" || ended=1 ;;
    make:*) mkdir -p "$(dirname "$copy")" && cp "$source" "$copy" ;;
    *) ended=2 ;;
    esac
done <args
case $ended in
1) echo "divisions/copies.sh: a source is not its copy: divisions/copies.sh make" >&2 ;;
2) echo "divisions/copies.sh check | make" >&2 ;;
esac
exit $ended
