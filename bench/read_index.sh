#!/usr/bin/env bash
# How long a built dictcat takes to read an index of 32,768 and of 65,536 lines, and the lines a second.
#
#     bench/read_index.sh [PROGRAM]
#
# PROGRAM is the built program, that of tools/program where none is named. Each size is read seven times, and the quickest is told.
set -euo pipefail
here=$(dirname "$0")
program=${1:-$("$here/../tools/program")}
folder=$(mktemp -d)
trap 'rm -rf "$folder"' EXIT

# The seconds of the quickest of seven runs of a command.
quickest() {
    python3 - "$@" <<'PY'
import subprocess, sys, time

best = None
for _ in range(7):
    start = time.perf_counter()
    subprocess.run(sys.argv[1:], stdin=subprocess.DEVNULL, stdout=subprocess.DEVNULL, check=True)
    took = time.perf_counter() - start
    best = took if best is None else min(best, took)
print(f"{best:.4f}")
PY
}

# What the program takes to start and to read next to nothing, so that it can be taken away.
python3 "$here/make_database.py" 2 100 "$folder/tiny.index" "$folder/tiny.dict"
tiny=$(quickest "$program" plain made "$folder/tiny.index" "$folder/tiny.dict")
echo "2 lines: $tiny s"

before=
for lines in 32768 65536; do
    octets=$((lines * 5000000 / 65536))
    python3 "$here/make_database.py" "$lines" "$octets" "$folder/made.index" "$folder/made.dict"
    took=$(quickest "$program" plain made "$folder/made.index" "$folder/made.dict")
    python3 - "$lines" "$octets" "$took" "$tiny" "$before" <<'PY'
import sys

lines, octets, took, tiny = int(sys.argv[1]), int(sys.argv[2]), float(sys.argv[3]), float(sys.argv[4])
print(f"{lines} lines, {octets} octets: {took} s, {lines / took:.0f} lines a second", end="")
if sys.argv[5]:
    print(f"; {(took - tiny) / (float(sys.argv[5]) - tiny):.2f} times as long as half of it", end="")
print()
PY
    before=$took
done
