#!/usr/bin/env bash
# Compares the key of an `a` with each character of Unicode behind it, with what Perl makes of it, and, where there is
# rustc, whether the character is kept with what Rust's std says: bench/fold_keys/compare.sh
set -e
here=$(cd "$(dirname "$0")" && pwd)
source "$here/build.sh"
work=$(mktemp -d)
trap 'rm -rf "$work"' EXIT
program=$(build "$work/here" fold_keys dict_match)
"$program" > "$work/keys"
perl "$here/compare.pl" "$work/keys"
if command -v rustc > "$work/rustc"; then
    rustc -O -o "$work/compare" "$here/compare.rs"
    "$work/compare" "$work/keys"
fi
