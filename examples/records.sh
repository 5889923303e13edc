#!/bin/sh
# Sorts the records of a file in a store by tools/wtf-sort, then merges the sorted file with another, and compares both with what
# `sort` makes of the same records. No byte is stored for either.
#
#   examples/records.sh [RECORDS]     RECORDS is 20000; each is a number of 15 digits and a line feed
#
# build/wtf and build/wtf_file are what `make build` makes.
set -eu
LC_ALL=C
export LC_ALL
top=$(cd "$(dirname "$0")/.." && pwd)
records=${1:-20000}
work=$(mktemp -d)
trap 'rm -rf "$work"' EXIT
trap 'exit 1' HUP INT TERM

# numbers in no order: NUMBER of them, from a seed
numbers() {
  awk -v n="$1" -v x="$2" 'BEGIN { for (i = 0; i < n; i++) { x = (x * 16807) % 2147483647; printf "%015d\n", x } }'
}

mkdir "$work/store"
numbers "$records" 7 > "$work/day1"
numbers $((records / 2)) 11 | sort > "$work/day2"
"$top/tools/wtf-put" "$work/store" /day1 < "$work/day1"
"$top/tools/wtf-put" "$work/store" /day2 < "$work/day2"
"$top/tools/wtf-sort" "$work/store" /sorted /day1 --record 16
"$top/tools/wtf-sort" "$work/store" /merged /sorted /day2 --record 16 --key 15
"$top/tools/wtf-get" "$work/store" /sorted "$work/sorted"
"$top/tools/wtf-get" "$work/store" /merged "$work/merged"
sort "$work/day1" | cmp - "$work/sorted"
sort "$work/day1" "$work/day2" | cmp - "$work/merged"
echo "records.sh: $records records were sorted, and $((records / 2)) more merged with them, as sort does it"
