/* Scopes, and what a declaration in a loop does at each turn. */
#include <stdio.h>

static int x = 1;

static void digit(int n) { putchar('0' + n); }

static int shadow(int x) {
    digit(x);
    {
        int x = 3;
        digit(x);
        { int x = 4; x++; digit(x); }
        x++;
        digit(x);
    }
    for (int x = 7; x < 9; x++) digit(x);
    return x;
}

int main(void) {
    int i;
    digit(shadow(2));
    digit(x);
    putchar('\n');
    for (i = 0; i < 3; i++) {
        int fresh = 0, row[4] = { 5, i };
        fresh++;
        digit(fresh); digit(row[0]); digit(row[1]); digit(row[2]); digit(row[3]);
        row[3] = 9;
        row[0] = fresh = 8;
    }
    putchar('\n');
    if (x) { int x = 6; digit(x); } else digit(0);
    for (int i = 0; i < 2; i++) { int y = i + x; x = y; }
    digit(x);
    digit(i);
    putchar('\n');
}
