# For the benches: a scratch repository in "$scratch" over copies of some crates, with a program `mv_bench` that uses some of them. Its source is
# named `.in`, since the gate reads each `.rt` file of this one. Set `here` to the bench's folder first.
top=$here/../..
scratch=$(mktemp -d)
trap 'rm -rf "$scratch"' EXIT

# scratch_of SOURCE 'CRATES COPIED' 'CRATES USED'
scratch_of() {
    mkdir -p "$scratch/crates/mv_bench/src"
    git -C "$scratch" init -q
    for crate in $2; do
        cp -r "$top/crates/$crate" "$scratch/crates/$crate"
        grep -E "^$crate:" "$top/crates.txt" >> "$scratch/crates.txt"
    done
    echo "mv_bench: $3" >> "$scratch/crates.txt"
    cp "$here/$1" "$scratch/crates/mv_bench/src/main.rt"
}

# Builds the program, by a run with the words given.
build() {
    (cd "$scratch/crates/mv_bench" && rt run -- "$@") > "$scratch/build.log" 2>&1 || { tail -n 20 "$scratch/build.log"; exit 1; }
}

# The host instructions of a program, counted by callgrind.
host() {
    valgrind --tool=callgrind --callgrind-out-file=/dev/null "$@" 2>&1 | sed -n 's/.*Collected : \([0-9]*\).*/\1/p'
}
