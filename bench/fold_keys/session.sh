#!/usr/bin/env bash
# Times sessions over databases in memory, beside those of another commit: bench/fold_keys/session.sh COMMIT
# The two programs are measured by bench/plain.py, each in turn. It proves and builds all that a session stands on.
set -e
here=$(cd "$(dirname "$0")" && pwd)
source "$here/build.sh"
work=$(mktemp -d)
trap 'rm -rf "$work"' EXIT
crates="dict_session dict_desk dict_catalogue dict_index dict_proto"
other=$(build "$work/other" session "$crates" "$1")
ours=$(build "$work/here" session "$crates")
"$here/../plain.py" 5 "$other" "$ours"
