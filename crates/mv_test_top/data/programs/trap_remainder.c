/* A remainder by zero in a compound assignment, after its right side; the element of the left side is tested first. */
#include <stdio.h>

static unsigned char items[2] = { 7, 9 };

static int nothing(int letter) {
    putchar(letter);
    return 0;
}

int main(void) {
    items[0] %= nothing('a') + 4;
    putchar('0' + items[0]);
    items[1] %= nothing('b');
    putchar('c');
}
