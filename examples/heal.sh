#!/bin/sh
# Loses the folder of a server for good and makes its copies again, for one server after the other; behind each, every file is taken
# out of the store and compared byte by byte.
#
#   examples/heal.sh [BYTES]     BYTES is 20971520, in five files
#
# The programs are those that `make build` makes.
set -eu
top=$(cd "$(dirname "$0")/.." && pwd)
bytes=${1:-20971520}
work=$(mktemp -d)
trap 'rm -rf "$work"' EXIT
trap 'exit 1' HUP INT TERM

mkdir "$work/store" "$work/files"
for n in 1 2 3 4 5; do
  head -c "$((bytes / 5))" /dev/urandom > "$work/files/$n"
  "$top/tools/wtf-put" "$work/store" "/data/$n" < "$work/files/$n"
done

for lost in 0 1 2 3; do
  rm "$work/store/s$lost"/[0-7]
  echo "heal.sh: the folder of server $lost is empty"
  "$top/build/wtf" "$work/store" < /dev/null 2> /dev/null || :
  "$top/build/wtf_heal" "$work/store" "$lost"
  for n in 1 2 3 4 5; do
    "$top/tools/wtf-get" "$work/store" "/data/$n" "$work/copy"
    cmp "$work/files/$n" "$work/copy"
  done
done
echo "heal.sh: all files came out as they were"
