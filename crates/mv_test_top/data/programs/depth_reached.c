/* A call at depth 511 calls a function that calls none: the deepest that there is. */
#include <stdio.h>

static int reached;

static int leaf(int n) { return n + 1; }

static int down(int depth, int end) {
    reached++;
    if (depth == end) return depth < 512 ? leaf(depth) : depth;
    return down(depth + 1, end) + 1;
}

int main(void) {
    int sum = down(1, 511);
    putchar(sum == 1022 ? 'y' : 'n');
    putchar(down(1, 512) == 1023 ? 'y' : 'n');
    putchar(reached == 1023 ? 'y' : 'n');
    return sum;
}
