#!/bin/sh
# Puts a file of random bytes into a store and takes it out again, in a run of its own and by a second path, and compares the two
# byte by byte.
#
#   examples/bytes.sh [BYTES]     BYTES is 1048576
#
# build/wtf and build/wtf_file are what `make build` makes.
set -eu
top=$(cd "$(dirname "$0")/.." && pwd)
bytes=${1:-1048576}
work=$(mktemp -d)
trap 'rm -rf "$work"' EXIT
trap 'exit 1' HUP INT TERM

mkdir "$work/store"
head -c "$bytes" /dev/urandom > "$work/file"
"$top/tools/wtf-put" "$work/store" /data/file < "$work/file"
printf '%s\n' 'c0 begin' 'c0 link /data/file /file' 'c0 try' | "$top/build/wtf" "$work/store" | grep '^committed ' > /dev/null
"$top/tools/wtf-get" "$work/store" /file "$work/copy"
cmp "$work/file" "$work/copy"

stored=$(($(cat "$work"/store/s*/[0-7] | wc -c)))
echo "bytes.sh: $bytes bytes went in and came out as they were; the servers hold $stored, two copies of each"
