/* ++ on an element of a global array that isn't there, named by a character. */
#include <stdio.h>

static short counts['d'];

int main(void) {
    counts['b']++;
    ++counts['c'];
    putchar('0' + counts['b']++ + counts['c']);
    putchar('0' + counts['b']);
    counts['e' - (counts['b'] == 2)]++;
    putchar('x');
}
