#!/usr/bin/env bash
# Times an index in memory over the headwords of dictionaries, beside its bounds: bench/search/run.sh [INDEX..]
# Each is made five times, and asked seven times each time; the best of each figure is told, in processor time. Without INDEX
# it takes Debian's WordNet and Arabic-English, and 262,144 made lines (bench/make_words.py). TIMES of the environment is the
# program, where it was built before: else it is proved and built (eleven minutes). Outside the gate: it needs python3.
set -e
here=$(cd "$(dirname "$0")" && pwd)
source "$here/build.sh"
work=$(mktemp -d)
trap 'rm -rf "$work"' EXIT
files=("$@")
if [[ ${#files[@]} -eq 0 ]]; then files=(/usr/share/dictd/wn.index /usr/share/dictd/freedict-ara-eng.index); fi
if [[ $# -eq 0 ]]; then
    python3 "$here/../make_words.py" 262144 20000000 "$work/made.index" "$work/made.dict"
    files+=("$work/made.index")
fi
program=${TIMES:-$(build "$work/here" times "${files[0]}")}
echo "$(date '+%d %B %Y, %H:%M'), load $(cut -d ' ' -f 1 /proc/loadavg), commit $(git -C "$here" rev-parse --short=8 HEAD)"
for file in "${files[@]}"; do
    echo "== $file"
    for round in 1 2 3 4 5; do
        "$program" "$file" > "$work/told.$round"
    done
    python3 "$here/table.py" "$work"/told.[12345]
done
