#!/usr/bin/env bash
# Builds the listing program, if it is not built yet, and prints the strip that the five numbers name.
# usage: scripts/listing.sh LEVELS STRENGTH FACTORS SEED SHUFFLER
set -eu
program=$("$(dirname "${BASH_SOURCE[0]}")/build.sh" strip_listing)
printf '%s\n' "$*" | "$program"
