/* Each byte of the input is a number from 0 to 255, the last ones too. */
#include <stdio.h>

static void number(unsigned n) {
    if (n > 9) number(n / 10);
    putchar('0' + n % 10);
}

int main(void) {
    int c, first = 1;
    while ((c = getchar()) != -1) {
        if (!first) putchar(' ');
        first = 0;
        number(c);
    }
    putchar('\n');
    putchar(321); putchar(-191); putchar(putchar(66) + 1);
    return -2;
}
