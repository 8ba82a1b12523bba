/* 60! and the 100th number of Fibonacci, in arrays of decimal digits. */
#include <stdio.h>

enum { DIGITS = 82 };

static unsigned char a[DIGITS], b[DIGITS];

static void clear(void) {
    int i;
    for (i = 0; i < DIGITS; i++) a[i] = b[i] = 0;
}

static void times(int factor) {
    int i, carry = 0;
    for (i = 0; i < DIGITS; i++) {
        carry += a[i] * factor;
        a[i] = carry % 10;
        carry /= 10;
    }
}

/* Adds b to a, and makes b what a was. */
static void follow(void) {
    int i, carry = 0;
    for (i = 0; i < DIGITS; i++) {
        int old = a[i];
        carry += old + b[i];
        a[i] = carry % 10;
        carry /= 10;
        b[i] = old;
    }
}

static void show(void) {
    int i = DIGITS - 1;
    while (i > 0 && a[i] == 0) i--;
    for (; i >= 0; i--) putchar('0' + a[i]);
    putchar('\n');
}

int main(void) {
    int n;
    a[0] = 1;
    for (n = 2; n <= 60; n++) times(n);
    show();
    clear();
    b[0] = 1;
    for (n = 0; n < 100; n++) follow();
    show();
    return a[0];
}
