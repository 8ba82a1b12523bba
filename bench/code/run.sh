#!/bin/sh
# How many instructions a guest executes, as `multiverse` compiles it and as gcc does (-march=rv32im: -O0, -O1, and -O1 with tests of indexes and divisors
# and the depth of calls counted, as ours has them); and what compiling costs the host as a source grows: run.sh [code|compile]..
# The guests are five programs of examples/ with their inputs and five of guests/. Ours are counted by the step limit, gcc's by QEMU, one line an
# instruction; gcc's input and output are functions of a few instructions each, ours one. The calls among the instructions are counted apart, ours by
# mix.py, gcc's by the addresses that QEMU traces. Compiling is counted by callgrind, up to the first instruction of the guest.
# Needs the program that .ci/run leaves (or PROGRAM), gcc-riscv64-unknown-elf, qemu-user and valgrind.
set -e
here=$(cd "$(dirname "$0")" && pwd)
examples=$here/../../examples
program=${PROGRAM:-$here/../../crates/mv_cli/out/mv_cli}
scratch=$(mktemp -d)
trap 'rm -rf "$scratch"' EXIT

# ours SOURCE INPUT: the least step limit that is enough
ours() {
    low=0
    high=1
    while [ "$("$program" run "$1" --steps $high < "$2" 2>&1 > /dev/null)" = steps ]; do
        low=$high
        high=$((2 * high))
    done
    while [ $((high - low)) -gt 1 ]; do
        middle=$(((low + high) / 2))
        if [ "$("$program" run "$1" --steps $middle < "$2" 2>&1 > /dev/null)" = steps ]; then low=$middle; else high=$middle; fi
    done
    echo "$high"
}

# our_calls SOURCE INPUT: the calls among them
our_calls() {
    PROGRAM=$program python3 "$here/mix.py" "$1" "$2" | awk '$1 == "call" { print $2 }'
}

# gccs SOURCE INPUT OPTION..: the instructions that QEMU traces, and how many of them are calls
gccs() {
    source=$1
    input=$2
    shift 2
    sed '/#include/d' "$source" > "$scratch/guest.c"
    riscv64-unknown-elf-gcc "$@" -w -fwrapv -funsigned-char -fno-builtin -march=rv32im -mabi=ilp32 -nostdlib -static -Wl,--no-relax \
        -include "$here/linux.h" -o "$scratch/guest" "$scratch/guest.c" -lgcc 2> "$scratch/gcc.log" || { cat "$scratch/gcc.log" >&2; exit 1; }
    riscv64-unknown-elf-objdump -d "$scratch/guest" | awk '$3 == "jal" || $3 == "jalr" { sub(":", "", $1); print $1 }' > "$scratch/calls"
    qemu-riscv32 -singlestep -d exec,nochain -D /dev/stderr "$scratch/guest" < "$input" 2>&1 > "$scratch/guest.out" |
        awk -v calls="$scratch/calls" 'BEGIN { while ((getline at < calls) > 0) is_call[at] = 1 }
            /^Trace/ { count++; split($4, parts, "/"); sub("^0*", "", parts[2]); if (parts[2] in is_call) called++ }
            END { print count, called + 0 }'
}

# checked SOURCE INPUT: those of -O1 with our checks
checked() {
    python3 "$here/checked.py" "$1" > "$scratch/checked.c"
    gccs "$scratch/checked.c" "$2" -O1 -ffixed-s11 -fsanitize=bounds -fsanitize=integer-divide-by-zero -fsanitize-undefined-trap-on-error
}

code() {
    for guest in "$examples/order" "$examples/programs/sha256" "$examples/programs/queens" "$examples/programs/life" "$examples/programs/interpreter" \
        "$here/guests/crc" "$here/guests/dispatch" "$here/guests/hash" "$here/guests/matrix" "$here/guests/search"; do
        input=$guest.in
        [ -f "$input" ] || input=/dev/null
        echo "$(basename "$guest") $(ours "$guest.c" "$input") $(our_calls "$guest.c" "$input") $(gccs "$guest.c" "$input" -O0) $(gccs "$guest.c" "$input" -O1) $(checked "$guest.c" "$input")"
    done | awk '{
            printf "%s: guest instructions %d, gcc -O0 %d, -O1 %d, -O1 with our checks %d; ratios %.2f, %.2f, %.2f; calls among them %d, %d, %d\n", $1, $2, $4, $6, $8, $2 / $4, $2 / $6, $2 / $8, $3, $5, $7
            unoptimized += log($2 / $4); optimized += log($2 / $6); checked += log($2 / $8)
        }
        END { printf "geometric means of the ratios: %.2f, %.2f, %.2f\n", exp(unoptimized / NR), exp(optimized / NR), exp(checked / NR) }'
}

# dense PATTERN PARTS: a source of so many parts of 1,100 bytes, a function each or one function of all
dense() {
    awk -v pattern="$1" -v parts="$2" 'BEGIN {
        for (line = 0; line < 8; line++)
            part = part sprintf("    while (a > %3d) { t[a & 7] += a * %3d; if (t[b & 7] ^ 5) a -= b | 1; else b += f0(a - 1, 2); }\n    a = (b << 3) - a / (t[2] | 1);\n", line * 11, line + 9)
        print "int t[8]; int f0(int a, int b) { return a ^ b; }"
        if (pattern == "one") print "int g(int a, int b) {"
        for (i = 0; i < parts; i++) {
            if (pattern == "many") printf "int g%d(int a, int b) {\n", i
            printf "%s", part
            if (pattern == "many") print "    return a; }"
        }
        if (pattern == "one") print "    return a; }"
        print "int main(void) { return t[1]; }"
    }'
}

# host SOURCE: the host instructions of compiling it, and how that ended
host() {
    valgrind --tool=callgrind --callgrind-out-file=/dev/null "$program" run "$1" --steps 1 < /dev/null 2> "$scratch/notes" > /dev/null || true
    grep -E '^(steps|refused)' "$scratch/notes" | head -n 1 > "$scratch/end"
    sed -n 's/.*Collected : \([0-9]*\).*/\1/p' "$scratch/notes"
}

compile() {
    for pattern in many one; do
        before=
        dense $pattern 940 > "$scratch/whole.c"
        words=$("$program" run "$scratch/whole.c" --steps 1 2>&1 < /dev/null | sed -n 's/^refused 9 count //p')
        for parts in 9 18 46 92 $((940 * 131000 / words)) 940; do
            dense $pattern $parts > "$scratch/source.c"
            bytes=$(wc -c < "$scratch/source.c")
            count=$(host "$scratch/source.c")
            awk -v pattern="$pattern" -v bytes="$bytes" -v count="$count" -v before="$before" -v end="$(cat "$scratch/end")" 'BEGIN {
                each = count / bytes
                printf "%s: %d bytes, %s: million host instructions %.1f, a byte %.0f%s\n", pattern, bytes, end, count / 1e6, each, before == "" ? "" : sprintf(", growth %.2f", each / before)
            }'
            before=$(awk -v count="$count" -v bytes="$bytes" 'BEGIN { print count / bytes }')
        done
    done
}

[ -x "$program" ] || { echo "no $program: .ci/run makes it" >&2; exit 1; }
[ $# -gt 0 ] || set -- code compile
for measure; do
    "$measure"
done
