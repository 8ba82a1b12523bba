/* Loops in each form, with break and continue at several depths. */
#include <stdio.h>

static void digit(int n) { putchar('0' + n % 10); }

int main(void) {
    int i, j, n = 0;
    while (n < 5) { digit(n); n++; }
    putchar('\n');
    do { digit(n); n -= 2; } while (n > 0);
    putchar('\n');
    do digit(n); while (0);
    for (i = 0; i < 3; i++) for (j = i; j < 3; j++) digit(i * 3 + j);
    putchar('\n');
    for (int k = 9; k; k--) {
        if (k % 2) continue;
        if (k == 4) break;
        digit(k);
    }
    putchar('\n');
    for (i = 0; ; i++) {
        int turns = 0;
        while (1) {
            if (++turns > i) break;
            if (turns == 2) continue;
            digit(turns);
        }
        if (i == 4) break;
        putchar(',');
    }
    putchar('\n');
    i = 0;
    do {
        i++;
        if (i == 2) continue;
        if (i == 5) break;
        digit(i);
    } while (i < 9);
    putchar('\n');
    for (;;) {
        for (;;) {
            do { if (i--) continue; else break; } while (i);
            break;
        }
        break;
    }
    digit(i + 1);
    while (i++ < 3) ;
    for (j = 0; j < 4; digit(j++)) { }
    digit(i);
    putchar('\n');
    return i;
}
