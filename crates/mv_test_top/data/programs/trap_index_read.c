/* An index of -1, as an unsigned number, isn't below the number of elements. */
#include <stdio.h>

static int before = 1;
static char letters[3] = "abc";
static int after = 2;

int main(void) {
    int i;
    for (i = 2; i > -3; i--) putchar(letters[i]);
    return before + after;
}
