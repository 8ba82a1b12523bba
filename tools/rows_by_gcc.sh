#!/bin/sh
# Compares the rows 'the example ..' and 'the program ..' of crates/mv_test_top with what gcc makes of examples/ (-O0, for RISC-V, run by QEMU): rows_by_gcc.sh
# Programs named trap_* end by traps, which C leaves undefined: their rows were worked out by hand. A commit does nothing here: these programs commit
# wherever they change a switch. Needs gcc-riscv64-unknown-elf and qemu-user.
set -e
top=$(cd "$(dirname "$0")/.." && pwd)
rows=$top/crates/mv_test_top
scratch=$(mktemp -d)
trap 'rm -rf "$scratch"' EXIT

# made SOURCE INPUT: what the program writes, and the last line of its notes
made() {
    sed '/#include/d' "$1" > "$scratch/guest.c"
    riscv64-unknown-elf-gcc -O0 -w -fwrapv -funsigned-char -fno-builtin -march=rv32im -mabi=ilp32 -nostdlib -static -Wl,--no-relax \
        -include "$top/bench/code/linux.h" -include "$top/include/multiverse.h" -o "$scratch/guest" "$scratch/guest.c" -lgcc 2> "$scratch/gcc.log" || { cat "$scratch/gcc.log" >&2; exit 1; }
    status=0
    qemu-riscv32 "$scratch/guest" < "$2" > "$scratch/out" || status=$?
    [ ! -s "$scratch/out" ] || [ -z "$(tail -c 1 "$scratch/out")" ] || echo >> "$scratch/out"
    echo "ended $status" >> "$scratch/out"
}

differ=0
for source in "$rows"/data/*.c "$rows"/data/programs/*.c; do
    name=$(basename "$source" .c)
    case $source in
        */trap_* | */mistake.c) continue ;;
        */programs/*) title="# the program $(echo "$name" | tr _ ' ')" ;;
        *) title="# the example $name"; grep -qxF "$title" "$rows/stdout" || continue ;;
    esac
    input=${source%.c}.in
    [ -f "$input" ] || input=/dev/null
    made "$source" "$input"
    awk -v title="$title" '/^# / { inside = $0 == title; next } inside' "$rows/stdout" > "$scratch/row"
    cmp -s "$scratch/row" "$scratch/out" || { echo "$name differs"; differ=$((differ + 1)); }
done
echo "$differ differ"
