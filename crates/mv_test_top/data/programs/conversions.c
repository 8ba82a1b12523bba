/* Conversions where a value is given to something: initial values, assignments, arguments, results. */
#include <stdio.h>

static void number(unsigned n) {
    if (n > 9) number(n / 10);
    putchar('0' + n % 10);
}

static void line(int n) {
    if (n < 0) putchar('-');
    number(n < 0 ? -n : n);
    putchar('\n');
}

static unsigned char bytes[4] = { 256, 257, -1, 1000 };
static signed char chars[3] = { 128, -129, 255 };
static short shorts[3] = { 32768, 65535, -32769 };
static _Bool flags[3] = { 2, 0, -1 };

static signed char as_char(int n) { return n; }
static unsigned short as_short(short n) { return n; }
static _Bool as_bool(unsigned char n) { return n; }
static unsigned as_unsigned(signed char n) { return n; }
static int first(signed char a, unsigned char b, short c, _Bool d) { return a * 1000000 + b * 1000 + c + d; }

int main(void) {
    signed char c = 300;
    unsigned short s = -2;
    _Bool b = 256;
    int i, n;
    for (i = 0; i < 4; i++) line(bytes[i]);
    for (i = 0; i < 3; i++) { line(chars[i]); line(shorts[i]); line(flags[i]); }
    line(c); line(s); line(b);
    line(as_char(200)); line(as_short(-1)); line(as_bool(256)); line(as_bool(255)); line(as_unsigned(255) == 4294967295u);
    line(first(254, 257, 65535, 2));
    n = c = s = 1023; line(n);
    n = b = 2 > 1; line(n);
    bytes[1] = chars[0] = 255; line(bytes[1]);
    line((c = 383) + 1); line(c++); line(c); line(--s);
    c = 127; c++; line(c);
    return as_char(-200);
}
