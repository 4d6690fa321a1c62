#!/usr/bin/env bash
# Measures chanv over the decks of decks.py and prints a table. Builds nothing.
#
#     bench/measure.sh [PROGRAM [NAME...]]
#
# PROGRAM is the built chanv; without it, crates/chanv/out/chanv from the top of the repository. With NAMEs only
# these decks are measured. RUNS (3) and LIMIT (300 seconds of processor time for one run) may be set in the environment.
# The status is 0 if each verdict is the expected one, 1 if one isn't, 2 if there is no such program.
set -eu

folder=$(cd "$(dirname "${BASH_SOURCE[0]}")" && pwd)
program=${1:-$folder/../crates/chanv/out/chanv}
if [ ! -f "$program" ] || [ ! -x "$program" ]; then
    printf 'no program %s\n' "$program" >&2
    exit 2
fi
[ $# -eq 0 ] || shift

work=$(mktemp -d)
trap 'rm -r "$work"' EXIT
python3 "$folder/decks.py" "$work" "$@"
python3 "$folder/measure.py" "$(realpath "$program")" "$work" "${RUNS:-3}" "${LIMIT:-300}"
