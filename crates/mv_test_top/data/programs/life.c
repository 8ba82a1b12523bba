/* Conway's life on a torus of 16 by 16 cells: a glider and a blinker for 8 generations. */
#include <stdio.h>

enum { SIDE = 16, CELLS = SIDE * SIDE };

static _Bool now[CELLS], then[CELLS];
static const short first[] = { 1, 18, 32, 33, 34, 136, 137, 138 };

static int place(int row, int column) {
    return (row + SIDE) % SIDE * SIDE + (column + SIDE) % SIDE;
}

static int neighbours(int row, int column) {
    int count = 0, down, right;
    for (down = -1; down <= 1; down++)
        for (right = -1; right <= 1; right++)
            if (down || right) count += now[place(row + down, column + right)];
    return count;
}

static void generation(void) {
    int row, column, i;
    for (row = 0; row < SIDE; row++) {
        for (column = 0; column < SIDE; column++) {
            switch (neighbours(row, column)) {
                case 2: then[place(row, column)] = now[place(row, column)]; break;
                case 3: then[place(row, column)] = 1; break;
                default: then[place(row, column)] = 0;
            }
        }
    }
    for (i = 0; i < CELLS; i++) now[i] = then[i];
}

int main(void) {
    int i, alive = 0;
    for (i = 0; i < 8; i++) now[first[i]] = 1;
    for (i = 0; i < 8; i++) generation();
    for (i = 0; i < CELLS; i++) {
        putchar(now[i] ? '#' : '.');
        if (i % SIDE == SIDE - 1) putchar('\n');
        alive += now[i];
    }
    return alive;
}
