# Builds a program of this folder over the crates that stand here: build WORK PROGRAM INDEX. It prints the program's path.
# The programs are kept as .txt: a file of code outside a crate would be refused by the gate. What libraries stand built in
# the crates' folders is taken along.
build() {
    local here top work name index
    here=$(cd "$(dirname "${BASH_SOURCE[0]}")" && pwd)
    top=$(cd "$here/../.." && pwd) work=$1 name=$2 index=$3
    mkdir -p "$work/crates/$name/src"
    cp -r "$top/crates/." "$work/crates/"
    cp "$here/$name.txt" "$work/crates/$name/src/main.rt"
    { cat "$top/crates.txt"; echo "$name: store_derived dict_match store_search memchr"; } > "$work/crates.txt"
    cp "$top/HANDLES" "$work/"
    (cd "$work/crates/$name" && rt run -- "$index") > "$work/built" 2>&1 || { cat "$work/built" >&2; return 1; }
    echo "$work/crates/$name/out/$name"
}
