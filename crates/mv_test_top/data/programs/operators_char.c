/* Each operator on values of type char: of each, a sum over what it gives for each two of some values. */
#include <stdio.h>

enum { VALUES = 6, OPERATORS = 40 };

static const char values[VALUES] = { 0, 1, 'x', 127, '\200', '\377' };
static unsigned sums[OPERATORS];
static int at;

static void note(unsigned value) {
    sums[at] = sums[at] * 31 + value;
    at++;
}

static void compare(char a, char b) {
    note(a < b); note(a > b); note(a <= b); note(a >= b); note(a == b);
    note(a != b); note(a && b); note(a || b); note(a < b ? a : b); note(!a);
}

static void compute(char a, char b) {
    note(a + b); note(a - b); note(a * b); note(b ? a / b : 0); note(b ? a % b : 0);
    note(a & b); note(a | b); note(a ^ b); note(a << b); note(a >> b);
}

static void step(char a) {
    char x = a;
    int old;
    note(~a); note(-a); note(+a); note(++x);
    old = x++;
    note(old * 3 + x); note(--x);
    old = x--;
    note(old * 3 + x);
}

static void assign(char a, char b) {
    char x = a, y;
    note(x += b); note(x -= a); note(x *= 5);
    x = a; note(b ? x /= b : 0);
    x = a; note(b ? x %= b : 0);
    x = a; note(x &= b); note(x |= 6); note(x ^= b);
    x = a; note(x <<= b);
    x = a; note(x >>= b);
    x = y = a * 77 + b;
    note(x + y); note((char) (a * 1000 - b)); note(x == y);
}

static void hex(unsigned value) {
    int shift;
    for (shift = 28; shift >= 0; shift -= 4) {
        unsigned digit = value >> shift & 15;
        putchar(digit < 10 ? '0' + digit : 'a' - 10 + digit);
    }
}

int main(void) {
    int i, j;
    for (i = 0; i < VALUES; i++) {
        for (j = 0; j < VALUES; j++) {
            at = 0;
            compute(values[i], values[j]);
            compare(values[i], values[j]);
            step(values[i]);
            assign(values[i], values[j]);
        }
    }
    for (i = 0; i < OPERATORS; i++) {
        hex(sums[i]);
        putchar(i % 5 == 4 ? '\n' : ' ');
    }
    return at == OPERATORS;
}
