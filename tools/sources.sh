# What the program is built from, for ./dictcat, .ci/run and tools/. To be read by `source`, with $top set.

noted=$top/out/sources
made_from=$top/out/built-from

# The crates that the program stands on, and its own, a line each; with them what crates.txt says of each.
program_lines() {
    (cd "$top" && awk -F: '
        /^[a-z0-9_]+:/ { line[$1] = $0; needs[$1] = $2 }
        END {
            ask[1] = "dictcat"; seen["dictcat"] = 1; last = 1
            for (at = 1; at <= last; at++) {
                print line[ask[at]]
                count = split(needs[ask[at]], each, " ")
                for (i = 1; i <= count; i++) if (each[i] in line && !(each[i] in seen)) { seen[each[i]] = 1; ask[++last] = each[i] }
            }
        }' crates.txt | LC_ALL=C sort)
}

# One sum over what crates.txt says of these crates and all their sources and proofs: no crate of tests is among them. It is
# noted, and made anew only where a file of any crate, or a folder of them, has changed since.
sources_sum() {
    if [[ -f $noted && $top/crates.txt -ot $noted ]] && [[ -z $(cd "$top" && find crates -name out -prune -o \
        \( -type d -o -name '*.rt' -o -name '*.antt' \) -newer "$noted" -print -quit) ]]; then
        cat "$noted"
        return
    fi
    mkdir -p "$top/out"
    local sum begun=$noted.begun
    : >"$begun"
    sum=$(cd "$top" && lines=$(program_lines) && {
        printf '%s\n' "$lines"
        sed 's|:.*||; s|^|crates/|' <<<"$lines" | tr '\n' '\0' | xargs -0 -I{} find {} -name out -prune -o -type f \
            \( -name '*.rt' -o -name '*.antt' \) -print0 | LC_ALL=C sort -z | xargs -0 sha256sum
    } | sha256sum | cut -d ' ' -f 1)
    # The note is as old as the beginning, so that what changed meanwhile counts as newer.
    printf '%s\n' "$sum" >"$noted.new"
    touch -r "$begun" "$noted.new"
    mv "$noted.new" "$noted"
    printf '%s\n' "$sum"
}

# The sum that the program of dist/ was built from.
kept_sum() {
    head -n 1 "$top/dist/built-from" 2>/dev/null || true
}

# The sum that the program built here was built from.
built_sum() {
    cat "$made_from" 2>/dev/null || true
}

# Proves and builds the program, and says what it is at meanwhile.
build() {
    local sum log crates
    if ! command -v rt >/dev/null; then
        echo "dictcat: the program has to be built from these sources, and there is no toolchain (rt) here" >&2
        exit 70
    fi
    sum=$(sources_sum)
    crates=$(grep -cE '^[a-z0-9_]+:' "$top/crates.txt")
    echo "dictcat: building, each proof is checked: some minutes the first time (up to $crates crates)" >&2
    log=$(mktemp)
    # The build ends by a run of the program with the words after --.
    if ! (cd "$top/crates/dictcat" && rt run -- --version 2>&1 </dev/null) | tee "$log" |
        sed -un 's/^crate \([a-z0-9_]*\):.*/dictcat: proved \1/p' >&2 || [[ ! -x $top/crates/dictcat/out/dictcat ]]; then
        cat "$log" >&2
        rm -f "$log"
        exit 70
    fi
    rm -f "$log"
    mkdir -p "$top/out"
    printf '%s\n' "$sum" >"$made_from"
}

# The path of a program that was built from these sources, which is built first where there is none. With
# DICTCAT_BUILD=1 it is one that was built here.
program() {
    local kept=$top/dist/dictcat-x86_64-linux built=$top/crates/dictcat/out/dictcat
    if [[ -z ${DICTCAT_BUILD:-} && -x $kept && $(kept_sum) == "$(sources_sum)" ]]; then
        echo "$kept"
        return
    fi
    if [[ ! -x $built || $(built_sum) != "$(sources_sum)" ]]; then
        build
    fi
    echo "$built"
}
