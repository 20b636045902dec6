#!/usr/bin/env bash
# Prints the figures of installs, openings, migrations, removals and of a session's lookups, each beside its bound:
# bench/store/limits.sh [--work FOLDER] [PROGRAM [PART..]]. PROGRAM is dictcat; without it, the one that ./dictcat runs.
# Outside the gate: it needs python3, gdb and binutils.
set -euo pipefail
here=$(cd "$(dirname "${BASH_SOURCE[0]}")" && pwd)
if [[ ${1:-} == --work ]]; then
    work=$2
    shift 2
else
    work=$(mktemp -d)
    trap 'rm -rf "$work"' EXIT
fi
program=${1:-$("$here/../../tools/program")}
python3 "$here/limits.py" "$program" "$work" "${@:2}"
