/* Writes a word, and ends with the status 3. */
#include <stdio.h>

int main(void) {
    putchar('H');
    putchar('i');
    putchar('\n');
    return 3;
}
