#!/usr/bin/env bash
# Asks an index in memory 2,000 queries over each of some dictionaries, by each strategy, and holds its four answers (entries,
# headwords, and the counts of both) against the filter of the whole list: bench/search/compare.sh [INDEX..]
# Without INDEX it takes every dictionary of Debian's that is installed (/usr/share/dictd), and 262,144 made lines. It says how
# many agreed, and ends with 1 unless all did. COMPARE of the environment is the program, where it was built before. Outside the
# gate: it needs python3, and some minutes for a large dictionary.
set -e
here=$(cd "$(dirname "$0")" && pwd)
source "$here/build.sh"
work=$(mktemp -d)
trap 'rm -rf "$work"' EXIT
files=("$@")
if [[ $# -eq 0 ]]; then
    python3 "$here/../make_words.py" 262144 20000000 "$work/made.index" "$work/made.dict"
    files=(/usr/share/dictd/*.index "$work/made.index")
fi
: > "$work/none"
program=${COMPARE:-$(build "$work/here" compare "$work/none")}
echo "$(date '+%d %B %Y, %H:%M'), load $(cut -d ' ' -f 1 /proc/loadavg), commit $(git -C "$here" rev-parse --short=8 HEAD)"
for file in "${files[@]}"; do
    if ! "$program" "$file" > "$work/told"; then
        echo "$file: not read"
        touch "$work/differs"
        continue
    fi
    awk -v name="$(basename "$file" .index)" '
        $1 == "entries" { entries = $2 }
        $2 == "asked" { asked += $3; agreed += $5; found += $7; none += $9 }
        END { printf "%-28s %7d entries: %d of %d agreed; %d entries found, nothing by %d\n", name, entries, agreed, asked, found, none; exit agreed != asked || asked == 0 }
    ' "$work/told" || touch "$work/differs"
done
[[ ! -e "$work/differs" ]]
