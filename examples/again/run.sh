#!/bin/sh
# Runs a script over a new folder, and then another one that goes on where the first ended. Compares the answers of both.
#
#   examples/again/run.sh [PROGRAM]     PROGRAM is build/wtf, which `make build` makes
set -eu
here=$(cd "$(dirname "$0")" && pwd)
program=${1:-$here/../../build/wtf}
[ -x "$program" ] || { echo "run.sh: there is no $program; 'make build' makes it" >&2; exit 2; }
work=$(mktemp -d)
trap 'rm -rf "$work"' EXIT

# a run, with the words behind its name
run() {
  name=$1
  shift
  "$program" "$work/store" "$@" < "$here/$name.wtf" > "$work/$name.out"
  diff "$here/$name.out" "$work/$name.out" || { echo "run.sh: the answers are not those of $name.out" >&2; exit 1; }
  echo "-- $name.wtf, as in $name.out"
}

run 1 --servers 3
# the settings are those of the image now
run 2
