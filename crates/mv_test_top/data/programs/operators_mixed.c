/* Operators whose operands have two types: the usual arithmetic conversions. */
#include <stdio.h>

static void number(unsigned n) {
    if (n > 9) number(n / 10);
    putchar('0' + n % 10);
}

static void line(int n) {
    if (n < 0) putchar('-');
    number(n < 0 ? -n : n);
    putchar('\n');
}

static signed char tiny = -3;
static unsigned char byte = 200;
static short small = -30000;
static unsigned short wide = 60000;
static _Bool yes = 1;

int main(void) {
    int n = -7;
    unsigned u = 7;
    line(n < u); line(tiny < u); line(small < wide); line(tiny < byte);
    line(n + u); line(n - u); line(n * u); line(n / u); line(n % u);
    line(n / yes); line(tiny * byte); line(small * wide); line(byte << 24 >> 24); line(wide * wide);
    line(n >> 1); line((n + u * 0) >> 1); line(tiny >> u); line(u >> yes);
    line(n & byte); line(tiny | u); line(small ^ wide);
    line(yes ? tiny : u); line((yes ? n : 0) < 0); line((yes ? n : 0u) < 0);
    line(n == 4294967289u); line(tiny != 253); line(n <= -7 && u >= 7);
    n += u; line(n); byte += small; line(byte); tiny *= wide; line(tiny); wide -= small; line(wide);
    u -= 8; line(u > n); small <<= yes; line(small); yes -= u; line(yes);
    return n;
}
