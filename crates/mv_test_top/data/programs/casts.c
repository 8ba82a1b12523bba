/* Each value cast to each type, and cast on to int. */
#include <stdio.h>

static const int values[14] = { 0, 1, -1, 2, 127, 128, 255, 256, -129, 32768, 65535, 65536, 2147483647, -2147483647 - 1 };

static void number(unsigned n) {
    if (n > 9) number(n / 10);
    putchar('0' + n % 10);
}

static void field(int n) {
    putchar(' ');
    if (n < 0) putchar('-');
    number(n < 0 ? -n : n);
}

int main(void) {
    int i;
    for (i = 0; i < 14; i++) {
        int v = values[i];
        field((_Bool) v); field((signed char) v); field((unsigned char) v); field((char) v);
        field((short) v); field((unsigned short) v); field((int) v); field((unsigned) v);
        field((signed char) (unsigned short) v); field((unsigned short) (signed char) v);
        field((unsigned) (signed char) v >> 4); field((int) (short) v >> 4); field((_Bool) (unsigned char) v);
        putchar('\n');
    }
}
