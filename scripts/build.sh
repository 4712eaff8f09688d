#!/usr/bin/env bash
# Proves and builds a program of this repository, where it is not built of these sources already, and prints its path.
# usage: scripts/build.sh NAME
set -eu
if [ $# -ne 1 ]; then
    echo "usage: scripts/build.sh NAME" >&2
    exit 2
fi
cd "$(dirname "${BASH_SOURCE[0]}")/../crates/$1"
[ -x "out/$1" ] || echo "proving and building $1, some minutes the first time .." >&2
log=$(mktemp)
trap 'rm -f "$log"' EXIT
input=/dev/null
[ ! -f stdin ] || input=stdin
# builds it if anything has changed, and runs it once
rt run <"$input" >"$log" 2>&1 || { tail -n 20 "$log" >&2; exit 1; }
echo "$PWD/out/$1"
