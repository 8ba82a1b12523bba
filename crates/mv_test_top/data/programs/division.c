/* Quotients and remainders of all signs, and of the greatest numbers. */
#include <stdio.h>

static void number(unsigned n) {
    if (n > 9) number(n / 10);
    putchar('0' + n % 10);
}

static void line(int n) {
    if (n < 0) putchar('-');
    number(n < 0 ? -n : n);
    putchar('\n');
}

static void both(int a, int b) { line(a / b); line(a % b); line(a / b * b + a % b == a); }
static void both_unsigned(unsigned a, unsigned b) { line(a / b); line(a % b); line(a / b * b + a % b == a); }

int main(void) {
    int least = -2147483647 - 1;
    both(7, 2); both(-7, 2); both(7, -2); both(-7, -2); both(0, -5); both(2, 3); both(-2, 3);
    both(2147483647, -1); both(least, 1); both(least, 2); both(least, 2147483647);
    both_unsigned(7, 2); both_unsigned(least, 2); both_unsigned(-1, 10); both_unsigned(5, -1); both_unsigned(least, -1);
    line(-7 / 2u); line((short) -7 / (unsigned char) 2); line((unsigned short) -7 % 10);
}
