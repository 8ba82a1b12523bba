/* The product of two matrices. The input has the rows, the columns and the elements of each, the output the elements of the product. */
#include <stdio.h>

enum { SIDE = 8, ELEMENTS = SIDE * SIDE };

/* Element [row][column] of a matrix is the one at row * SIDE + column. */
static int left[ELEMENTS], right[ELEMENTS], product[ELEMENTS];
static int ahead;

static int read(void) {
    int n = 0;
    _Bool is_negative = 0;
    while (ahead == ' ' || ahead == '\n') ahead = getchar();
    if (ahead == '-') {
        is_negative = 1;
        ahead = getchar();
    }
    while (ahead >= '0' && ahead <= '9') {
        n = 10 * n + (ahead - '0');
        ahead = getchar();
    }
    return is_negative ? -n : n;
}

static void write(int n) {
    if (n < 0) {
        putchar('-');
        n = -n;
    }
    if (n > 9) write(n / 10);
    putchar('0' + n % 10);
}

int main(void) {
    int rows, columns, inner, row, column, i;
    ahead = ' ';
    rows = read();
    inner = read();
    for (row = 0; row < rows; row++)
        for (i = 0; i < inner; i++) left[row * SIDE + i] = read();
    if (read() != inner) return 1;
    columns = read();
    for (i = 0; i < inner; i++)
        for (column = 0; column < columns; column++) right[i * SIDE + column] = read();
    for (row = 0; row < rows; row++) {
        for (column = 0; column < columns; column++) {
            int sum = 0;
            for (i = 0; i < inner; i++) sum += left[row * SIDE + i] * right[i * SIDE + column];
            product[row * SIDE + column] = sum;
        }
    }
    for (row = 0; row < rows; row++) {
        for (column = 0; column < columns; column++) {
            if (column > 0) putchar(' ');
            write(product[row * SIDE + column]);
        }
        putchar('\n');
    }
}
