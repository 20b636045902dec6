#!/usr/bin/env bash
# Installs WordNet and GCIDE of Debian's whole, asks, rolls back and audits them: bench/store/debian.sh [PROGRAM [NAME..]].
# PROGRAM is dictcat; without it, the one that ./dictcat runs. NAMEs are of /usr/share/dictd. Outside the gate: it needs python3,
# sqlite3, dict-wn and dict-gcide.
set -euo pipefail
here=$(cd "$(dirname "${BASH_SOURCE[0]}")" && pwd)
work=$(mktemp -d)
trap 'rm -rf "$work"' EXIT
program=${1:-$("$here/../../tools/program")}
python3 "$here/debian.py" "$program" "$work" "${@:2}"
