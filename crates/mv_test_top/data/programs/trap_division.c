/* A division by zero whose value nobody reads; one beside it that isn't evaluated. */
#include <stdio.h>

static int zero;

int main(void) {
    int unread;
    unread = zero && 1 / zero;
    putchar('a');
    unread = putchar('b') / zero;
    putchar('c');
}
