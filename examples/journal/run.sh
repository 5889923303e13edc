#!/bin/sh
# Kills a run with a journal between two lines, and then shows by another one that each commit that was answered is there. Nothing was
# saved; the transaction that was open is gone. Compares the answers of both.
#
#   examples/journal/run.sh [PROGRAM]     PROGRAM is build/wtf, which `make build` makes
set -eu
here=$(cd "$(dirname "$0")" && pwd)
program=${1:-$here/../../build/wtf}
[ -x "$program" ] || { echo "run.sh: there is no $program; 'make build' makes it" >&2; exit 2; }
work=$(mktemp -d)
trap 'rm -rf "$work"' EXIT

same() {
  diff "$here/$1.out" "$work/$1.out" || { echo "run.sh: the answers are not those of $1.out" >&2; exit 1; }
}

# the run waits for more lines once all of these are answered, and is killed then
mkfifo "$work/lines"
"$program" "$work/store" --journal --servers 3 < "$work/lines" > "$work/1.out" &
child=$!
exec 3> "$work/lines"
cat "$here/1.wtf" >&3
tries=0
while [ "$(wc -l < "$work/1.out")" -lt "$(wc -l < "$here/1.out")" ] && [ "$tries" -lt 200 ]; do
  sleep 0.05
  tries=$((tries + 1))
done
kill -9 "$child"
wait "$child" 2> /dev/null || :
exec 3>&-
same 1
echo "-- 1.wtf, as in 1.out; killed before its end"

"$program" "$work/store" --journal < "$here/2.wtf" > "$work/2.out"
same 2
echo "-- 2.wtf, as in 2.out"
