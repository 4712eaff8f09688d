#!/usr/bin/env bash
# Builds the trial program, if it is not built yet, and holds the trial of a script.
# usage: scripts/trial.sh FILE
set -eu
if [ $# -ne 1 ]; then
    echo "usage: scripts/trial.sh FILE" >&2
    exit 2
fi
exec <"$1"
program=$("$(dirname "${BASH_SOURCE[0]}")/build.sh" strip_trial </dev/null)
"$program"
