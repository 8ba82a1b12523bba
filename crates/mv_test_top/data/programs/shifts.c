/* Shifts by each count below 32, in both directions, of signed and unsigned values. */
#include <stdio.h>

static const char digits[] = "0123456789abcdef";

static void hex(unsigned value) {
    int shift;
    for (shift = 28; shift >= 0; shift -= 4) putchar(digits[value >> shift & 15]);
}

int main(void) {
    int n = -1985229329;
    unsigned u = 2309737967u;
    signed char c = -86;
    unsigned short s = 43981;
    int count;
    for (count = 0; count < 32; count++) {
        hex(n << count); putchar(' '); hex(n >> count); putchar(' ');
        hex(u << count); putchar(' '); hex(u >> count); putchar(' ');
        hex(c << count); putchar(' '); hex(c >> count); putchar(' ');
        hex(s << count); putchar(' '); hex(s >> count); putchar('\n');
    }
}
