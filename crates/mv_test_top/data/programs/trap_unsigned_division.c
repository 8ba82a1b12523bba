/* The divisor is converted before it is tested: 256 is 0 as an unsigned char. */
#include <stdio.h>

static unsigned divide(unsigned a, unsigned char b) { return a / b; }

int main(void) {
    putchar('0' + divide(9, 259));
    putchar('0' + divide(9, 256));
}
