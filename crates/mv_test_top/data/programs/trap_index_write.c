/* An index is tested before the value is evaluated, and nothing is stored. */
#include <stdio.h>

int main(void) {
    int row[5], guard = 'g', i;
    for (i = 0; i < 9; i++) {
        row[i] = putchar('0' + i);
        putchar(guard);
    }
}
