/* The end of the input stays: every later getchar gives -1. */
#include <stdio.h>

int main(void) {
    int i, c, sum = 0;
    unsigned char byte;
    for (i = 0; i < 6; i++) {
        c = getchar();
        if (c == -1) putchar('E'); else putchar(c);
        sum += c;
    }
    byte = getchar();
    putchar(byte == 255 ? 'Y' : 'N');
    while (getchar() != -1) putchar('x');
    return sum;
}
