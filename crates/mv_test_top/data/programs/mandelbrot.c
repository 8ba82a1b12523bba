/* The Mandelbrot set in letters, with numbers of 12 bits behind the point. */
#include <stdio.h>

enum { ONE = 1 << 12, TURNS = 30 };

static int turns(int x, int y) {
    int a = 0, b = 0, n;
    for (n = 0; n < TURNS; n++) {
        int aa = a * a >> 12, bb = b * b >> 12;
        if (aa + bb > 4 * ONE) break;
        b = (2 * a * b >> 12) + y;
        a = aa - bb + x;
    }
    return n;
}

int main(void) {
    int row, column, sum = 0;
    for (row = -8; row <= 8; row++) {
        for (column = -32; column < 16; column++) {
            int n = turns(column * ONE / 16, row * ONE / 7);
            putchar(n == TURNS ? '#' : n < 3 ? '.' : 'a' + n % 26);
            sum += n;
        }
        putchar('\n');
    }
    return sum % 256;
}
