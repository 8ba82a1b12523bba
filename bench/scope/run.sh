#!/bin/sh
# What names cost in a scope, as measure.py says. Needs gcc.
set -e
here=$(cd "$(dirname "$0")" && pwd)
. "$here/../scratch.sh"
scratch_of scope.rt.in 'mv_num mv_bindings mv_syntax mv_ast mv_check_outline mv_check_scope' 'mv_check_scope'
build < /dev/null
gcc -O2 -shared -fPIC -o "$scratch/count.so" "$here/../allocations/count.c" -ldl
gcc -O2 -o "$scratch/collide" "$here/../front/collide.c"
python3 "$here/measure.py" "$scratch/crates/mv_bench/out/mv_bench" "$scratch/count.so" "$scratch/collide"
