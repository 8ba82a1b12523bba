/* A call through a null pointer of a table, after its argument. */
#include <stdio.h>

static int plus(int n) { return n + 1; }

static int (*const table[3])(int) = { plus, plus };

int main(void) {
    int i;
    for (i = 0; i < 3; i++) putchar(table[i](putchar('a' + i)));
    putchar('x');
}
