#!/usr/bin/env bash
# Tells where the seconds and the memory of a run of dictcat go, stage by stage: bench/store/stages.sh PROGRAM WORD..
# as `bench/store/stages.sh dist/dictcat-x86_64-linux list FILE`. Outside the gate: it needs gdb and binutils.
set -euo pipefail
here=$(cd "$(dirname "${BASH_SOURCE[0]}")" && pwd)
program=$(realpath "$1")
shift
gdb -batch -nx -x "$here/stages.py" --args "$program" "$@" 2>&1 | grep -E '^ *[0-9.]+ s, |^Error|Exception|fault' || true
