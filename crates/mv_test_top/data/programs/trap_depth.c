/* A function at depth 512 calls a function. */
#include <stdio.h>

static void down(int depth) {
    if (depth % 64 == 0) putchar('0' + depth / 64);
    down(depth + 1);
    putchar('x');
}

int main(void) {
    down(1);
    putchar('y');
}
