#!/usr/bin/env bash
# Imports all 31 packages of Debian's that docs/DICTIONARIES.md names, one after the other, over HTTP into one server, and opens
# that file: bench/store/every.sh [PROGRAM [FILE]]. PROGRAM is dictcat; without it, the one that ./dictcat runs. FILE stays,
# where it is named. Outside the gate: it needs python3, and room for 1 GB; packages are fetched into CACHE (tests/contrib/dictionaries).
set -euo pipefail
here=$(cd "$(dirname "${BASH_SOURCE[0]}")" && pwd)
program=${1:-$("$here/../../tools/program")}
python3 "$here/every.py" "$program" "${@:2}"
