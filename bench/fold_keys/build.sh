# Builds a program of this folder over the crates of a commit, or of what stands here:
# build WORK PROGRAM CRATES [COMMIT]. It prints the program's path. CRATES are those that PROGRAM.txt names.
build() {
    local here top work name crates commit
    here=$(cd "$(dirname "${BASH_SOURCE[0]}")" && pwd)
    top=$(cd "$here/../.." && pwd) work=$1 name=$2 crates=$3 commit=${4:-}
    mkdir -p "$work"
    if [ -n "$commit" ]; then
        git -C "$top" archive "$commit" crates.txt crates | tar -x -C "$work"
    else
        git -C "$top" ls-files -z crates.txt crates | (cd "$top" && xargs -0 tar -c) | tar -x -C "$work"
    fi
    mkdir -p "$work/crates/$name/src"
    cp "$here/$name.txt" "$work/crates/$name/src/main.rt"
    echo "$name: $crates" >> "$work/crates.txt"
    : > "$work/none"
    (cd "$work/crates/$name" && rt run -- "$work/none" 0 < "$work/none") > "$work/built" 2>&1 || { cat "$work/built" >&2; return 1; }
    echo "$work/crates/$name/out/$name"
}
