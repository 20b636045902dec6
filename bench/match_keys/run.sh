#!/usr/bin/env bash
# Times `matches` over 65,536 keys, beside the same loops in Rust: bench/match_keys/run.sh [COUNT]
# The program over dict_match is program.txt: a file of code outside a crate would be refused by the gate.
# Both programs print, for each strategy, its name, how many hits there were and how many microseconds that took;
# the table has keys a second of the best of three runs, and the ratio of the times. Outside the gate: it needs rustc and python3.
set -e
here=$(cd "$(dirname "$0")" && pwd)
top=$(cd "$here/../.." && pwd)
work=$(mktemp -d)
trap 'rm -rf "$work"' EXIT

mkdir -p "$work/crates/match_keys/src"
cp -r "$top/crates/dict_text" "$top/crates/dict_match" "$work/crates/"
cp "$here/program.txt" "$work/crates/match_keys/src/main.rt"
{ sed -n '/^dict_text:/p; /^dict_match:/p' "$top/crates.txt"; echo 'match_keys: dict_match'; } > "$work/crates.txt"
python3 "$here/keys.py" "${1:-65536}" > "$work/keys"
rustc -O -o "$work/rust" "$here/main.rs"
(cd "$work/crates/match_keys" && rt run -- "$work/keys") > "$work/built" 2>&1 || { cat "$work/built"; exit 1; }

for round in 1 2 3; do
    "$work/crates/match_keys/out/match_keys" "$work/keys" > "$work/proved.$round"
    "$work/rust" "$work/keys" > "$work/rust.$round"
done
python3 - "$work" <<'TABLE'
import sys

work = sys.argv[1]
tests = 80 * sum(1 for _ in open(f"{work}/keys"))


def best(program):
    """For each strategy its hits, which must be the same at each run, and the least time in microseconds."""
    found = {}
    for round in (1, 2, 3):
        for line in open(f"{work}/{program}.{round}"):
            name, hits, micros = line.split()
            assert found.get(name, (hits, 0))[0] == hits, name
            found[name] = (hits, min(int(micros), found.get(name, (hits, int(micros)))[1]))
    return found


ours, theirs = best("proved"), best("rust")
for name, (hits, micros) in ours.items():
    assert theirs[name][0] == hits, (name, hits, theirs[name])
    rust = theirs[name][1]
    print(f"{name:10} hits {hits:>8}  {tests / micros:6.1f} million keys/s  Rust {tests / rust:6.1f}  ratio of times {micros / rust:.2f}")
TABLE
