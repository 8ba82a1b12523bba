/* At depth 512 a null pointer is found before the depth is, and a known function needs no depth. */
#include <stdio.h>

static int (*none)(int);

static void down(int depth) {
    if (depth < 512) down(depth + 1);
    putchar('a');
    if (depth == 512) none(putchar('b'));
    putchar('c');
}

int main(void) { down(1); }
