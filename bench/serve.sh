#!/usr/bin/env bash
# Measures the server, beside dictd where it is there: bench/serve.sh [--work FOLDER] [PROGRAM [PART..]]. PARTS: `lines` (four
# lines, over 1, 8 and 64 connections, and what is taken while nothing comes), and those of bench/serve/dictionaries.py, over
# dictionaries of Debian's: `kept`, `long`, `answers`, `requests`, `slowest`, `crowd`, `round`, `memory`, `idle`, `install`,
# `growth`, `start`. Without one it is all.
# PROGRAM is dictcat; without it, the one that ./dictcat runs. Outside the gate: it needs python3, and for all but `lines` gcc,
# dictd, dict-wn, dict-foldoc, dict-freedict-ara-eng and dict-gcide (apt-get install). FOLDER keeps what was made.
set -euo pipefail
here=$(cd "$(dirname "${BASH_SOURCE[0]}")" && pwd)
if [[ ${1:-} == --work ]]; then
    work=$2
    shift 2
    mkdir -p "$work"
else
    work=$(mktemp -d)
    trap 'rm -rf "$work"' EXIT
fi
program=${1:-$("$here/../tools/program")}
shift || true
if (($# == 0)) || [[ " $* " == *" lines "* ]]; then
    python3 "$here/serve/serve.py" "$program" "$here/../examples"
fi
rest=()
for part in "$@"; do
    [[ $part == lines ]] || rest+=("$part")
done
if (($# == 0 || ${#rest[@]})); then
    gcc -O2 -o "$work/client" "$here/serve/client.c"
    python3 "$here/serve/dictionaries.py" "$program" "$work/client" "$work/dictionaries" "${rest[@]}"
fi
