/* The ways to place eight queens, and the first of them. */
#include <stdio.h>

enum { SIDE = 8 };

static signed char queen[SIDE];
static _Bool column[SIDE], rising[2 * SIDE], falling[2 * SIDE];
static int found;

static void show(void) {
    int row;
    for (row = 0; row < SIDE; row++) putchar('1' + queen[row]);
    putchar('\n');
}

static void place(int row) {
    int at;
    if (row == SIDE) {
        if (!found++) show();
        return;
    }
    for (at = 0; at < SIDE; at++) {
        if (column[at] || rising[row + at] || falling[row - at + SIDE]) continue;
        queen[row] = at;
        column[at] = rising[row + at] = falling[row - at + SIDE] = 1;
        place(row + 1);
        column[at] = rising[row + at] = falling[row - at + SIDE] = 0;
    }
}

int main(void) {
    place(0);
    return found;
}
