#!/usr/bin/env bash
# Takes all figures of bench/ by one program in one run, the most wanted first: bench/figures.sh PROGRAM OUTDIR [STEP..]
#
# STEPS: asked (requests, slowest answers, and who asks beside a dear MATCH, beside dictd), growth, start, round, debian, limits, search,
# every (all 31 packages of Debian's imported into one server, and that file opened), install, kept, long, lines, scale
# (tests/scale), migrations, table (that of docs/DICTIONARIES.md), memory, alike (what both answer, compared), kill;
# without one it is all of them, in this order. What each prints goes to OUTDIR/STEP.md; how long it took and how busy the
# machine was to OUTDIR/times; which program it was to OUTDIR/program. A step that fails is told, and the others go on;
# bench/paste.py puts it all into the pages. From the environment:
#   WORK   a folder that stays, with what is made beforehand ($OUTDIR/work)
#   CACHE  where the packages are kept (tests/contrib/dictionaries)
#   TIMES  the built program of bench/search/times.txt, without which `search` proves and builds it
#   OLDER  a program that makes files of schema 4, for migrations (that of dist/ at commit 500f3b9e)
#   KILLS  how many kills (1000)
# Outside the gate: it needs what the scripts of bench/ need, and a machine with nothing beside it. Statuses: 0 each step ended
# well, 1 one did not, 2 the words can't be made out.
set -uo pipefail
here=$(cd "$(dirname "${BASH_SOURCE[0]}")" && pwd)
all="asked growth start round debian limits search every install kept long lines scale migrations table memory alike kill"
case ${1:-} in -*) sed -n '2,/^set /s/^# \{0,1\}//p' "${BASH_SOURCE[0]}"; exit $([[ $1 == -h || $1 == --help ]] || echo 2) ;; esac
if (($# < 2)) || [[ ! -x $1 ]]; then
    echo "usage: bench/figures.sh PROGRAM OUTDIR [STEP..]" >&2
    exit 2
fi
program=$(realpath "$1") out=$(realpath -m "$2")
shift 2
for step in "$@"; do
    [[ " $all " == *" $step "* ]] || { echo "no step is called $step: there are $all" >&2; exit 2; }
done
work=${WORK:-$out/work}
mkdir -p "$out" "$work"
export SECONDS_EACH=${SECONDS_EACH:-0.2} IDLE_SECONDS=${IDLE_SECONDS:-10}

# A catalogue that another program made, or that a run which was stopped may have left half, is made anew.
sum=$(sha256sum <"$program" | cut -d ' ' -f 1)
if [[ -e $work/begun || $(cat "$work/program" 2>/dev/null) != "$sum" ]]; then
    find "$work" -name '*.db*' -delete
    echo "$sum" >"$work/program"
fi
touch "$work/begun"
# A further run by the same program adds to the one before.
[[ $(head -c 64 "$out/program" 2>/dev/null) == "$sum" ]] || {
    echo "$sum  $program"
    "$program" --version
    echo "clone $(git -C "$here" rev-parse --short=8 HEAD 2>/dev/null), $(date '+%d %B %Y, %H:%M')"
    echo "$(nproc) cores of $(sed -n 's/^model name\s*: //p' /proc/cpuinfo | head -n 1), $(awk '/MemTotal/ { printf "%.0f GB", $2 / 1048576 }' /proc/meminfo)"
} >"$out/program"

run() {
    case $1 in
        asked) "$here/serve.sh" --work "$work/serve" "$program" requests slowest crowd ;;
        growth | start | round | install | kept | long | memory) "$here/serve.sh" --work "$work/serve" "$program" "$1" ;;
        lines) "$here/serve.sh" "$program" lines ;;
        debian) "$here/store/debian.sh" "$program" ;;
        limits) "$here/store/limits.sh" --work "$work/limits" "$program" installs lookups openings removals ;;
        migrations) "$here/store/limits.sh" --work "$work/limits" "$program" migrations ;;
        search) "$here/search/run.sh" ;;
        every) "$here/store/every.sh" "$program" ;;
        table) DICTCAT=$program "$here/../tests/contrib/dictionaries" --table --all ;;
        alike) "$here/serve.sh" --work "$work/serve" "$program" answers ;;
        scale) DICTCAT=$program "$here/../tests/scale" --seed 52 ;;
        kill) "$here/kill.sh" "${KILLS:-1000}" "$program" ;;
    esac
}

load() { cut -d ' ' -f 1 /proc/loadavg; }
status=0
for step in ${*:-$all}; do
    before=$(load) began=$SECONDS ended=well
    run "$step" >"$out/$step.md" 2>"$out/$step.err" </dev/null || { ended="BADLY ($out/$step.err)" status=1; }
    echo "$(date +%H:%M) $step: $((SECONDS - began)) s, load $before before, $(load) behind; ended $ended" | tee -a "$out/times"
done
rm "$work/begun"
exit $status
