/* Functions of eight parameters, which change them and call one another. */
#include <stdio.h>

static void number(unsigned n) {
    if (n > 9) number(n / 10);
    putchar('0' + n % 10);
}

static void line(int n) {
    if (n < 0) putchar('-');
    number(n < 0 ? -n : n);
    putchar('\n');
}

static int eight(int a, signed char b, unsigned char c, short d, unsigned short e, unsigned f, _Bool g, int (*h)(int)) {
    a += b; b -= c; c *= 3; d = d << 1; e = e / 2 + f; f = ~f; g = !g;
    return h(a + 10 * b + 100 * c + 1000 * d + e + (f >> 28) + g);
}

static int same(int n) { return n; }
static int rest(int n) { return n % 1000; }

static int later(int a, int b, int c, int d, int e, int f, int g, int h);

static int turn(int a, int b, int c, int d, int e, int f, int g, int h) {
    return a == 0 ? b + 2 * c + 3 * d + 4 * e + 5 * f + 6 * g + 7 * h : later(a - 1, c, d, e, f, g, h, b);
}

static int later(int a, int b, int c, int d, int e, int f, int g, int h) { return turn(a, c, b, d, e, f, h, g); }

static void nothing(void) { return; }
static int zero(void) { return 0; }

int main(void) {
    int i;
    line(eight(1, 2, 3, 4, 5, 6, 7, same));
    line(eight(1000000, -128, 255, 32767, 65535, 4294967295u, 0, rest));
    line(eight(eight(1, 1, 1, 1, 1, 1, 1, same), 300, 300, 70000, 70000, -1, 256, rest));
    for (i = 0; i < 4; i++) line(turn(i, 1, 2, 3, 4, 5, 6, 7));
    nothing();
    (void) turn(0, 0, 0, 0, 0, 0, 0, 0);
    return same(zero());
}
