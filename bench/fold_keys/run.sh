#!/usr/bin/env bash
# Times `key_of`, beside that of another commit: bench/fold_keys/run.sh [COMMIT [ROUNDS]]
# It takes the processor's time of programs that make the keys of headwords in ASCII, Greek, Arabic and French so many
# times, the least of eleven runs, each program in turn, less that of a run which only reads the file.
set -e
here=$(cd "$(dirname "$0")" && pwd)
source "$here/build.sh"
work=$(mktemp -d)
trap 'rm -rf "$work"' EXIT
programs=("$(build "$work/here" fold_keys dict_match)")
if [ -n "${1:-}" ]; then programs=("$(build "$work/other" fold_keys dict_match "$1")" "${programs[@]}"); fi
python3 "$here/time_keys.py" "$work" "${2:-40}" "${programs[@]}"
