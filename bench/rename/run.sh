#!/bin/sh
# What renaming costs as a body grows: host instructions at 4,000, 8,000 and 16,000 temporaries, and what doubling costs, which is 2 where a pass is
# linear and 4 where it is quadratic: run.sh [PATTERN..]
# What it takes to make the body is in it. Needs valgrind.
set -e
here=$(cd "$(dirname "$0")" && pwd)
. "$here/../scratch.sh"
scratch_of rename.rt.in 'mv_num mv_bindings mv_ast mv_ir mv_regalloc' 'mv_num mv_ir mv_regalloc'
# The bodies of the bench aren't shown to be whole, as `rename` asks: so it calls the three passes that `rename` consists of.
sed -i -E 's/^mod (apply|number|spans|table);/pub mod \1;/' "$scratch/crates/mv_regalloc/src/lib.rt"
build kept 10

[ $# -gt 0 ] || set -- kept chain breaks returns leaves loops exits levels jumps
for pattern; do
    program=$scratch/crates/mv_bench/out/mv_bench
    awk -v p="$pattern" -v a="$(host "$program" "$pattern" 4000)" -v b="$(host "$program" "$pattern" 8000)" -v c="$(host "$program" "$pattern" 16000)" \
        'BEGIN { printf "%s: million instructions %.1f, %.1f, %.1f; doubling %.2f, %.2f\n", p, a / 1e6, b / 1e6, c / 1e6, b / a, c / b }'
done
