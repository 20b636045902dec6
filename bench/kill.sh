#!/usr/bin/env bash
# Kills a server in the midst of installs by HTTP, many times over, and tests what is left: bench/kill.sh [TIMES [PROGRAM [OCTETS]]].
# PROGRAM is dictcat; without it, the one that ./dictcat runs. Outside the gate: it needs python3.
set -euo pipefail
here=$(cd "$(dirname "${BASH_SOURCE[0]}")" && pwd)
program=${2:-$("$here/../tools/program")}
python3 "$here/serve/kill.py" "$program" "${1:-1000}" "${3:-0}"
