#!/usr/bin/env bash
# Builds the checking program, if it is not built yet, and says whether a table of levels, of the file or of standard input, is an
# orthogonal array.
# usage: scripts/check.sh [FILE]
set -eu
if [ $# -gt 1 ]; then
    echo "usage: scripts/check.sh [FILE]" >&2
    exit 2
fi
[ $# -eq 0 ] || exec <"$1"
scripts=$(dirname "${BASH_SOURCE[0]}")
if [ ! -x "$scripts/../crates/table_check/out/table_check" ]; then
    # what writes the table may be building a program too, and is done first
    table=$(mktemp)
    trap 'rm -f "$table"' EXIT
    cat >"$table"
    exec <"$table"
fi
program=$("$scripts/build.sh" table_check </dev/null)
"$program"
