#!/usr/bin/env bash
# Times a file that is made, installed into three times and opened, beside Python's sqlite3 module with the same rows:
# bench/store/run.sh [PROGRAM]. PROGRAM is one that was built of program.txt; without it, it is proved and built in a copy of
# the crates, which takes as long as a build of all that the store stands on. Outside the gate: it needs python3.
set -e
here=$(cd "$(dirname "$0")" && pwd)
top=$(cd "$here/../.." && pwd)
work=$(mktemp -d)
trap 'rm -rf "$work"' EXIT
program=${1:-}
if [[ -z $program ]]; then
    cp -a "$top/crates" "$top/HANDLES" "$work/"
    mkdir -p "$work/crates/bench_store/src"
    cp "$here/program.txt" "$work/crates/bench_store/src/main.rt"
    { cat "$top/crates.txt"; echo 'bench_store: store_desk dict_desk dict_catalogue dict_index sqlite'; } >"$work/crates.txt"
    (cd "$work/crates/bench_store" && rt run -- create "$work/first.db") >"$work/built" 2>&1 || { cat "$work/built"; exit 1; }
    program=$work/crates/bench_store/out/bench_store
fi
python3 "$here/store.py" "$program" "$work"
