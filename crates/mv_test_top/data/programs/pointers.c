/* Pointers to functions: in globals, locals, arrays and parameters; compared, tested, called. */
#include <stdio.h>

static int twice(int n) { return 2 * n; }
static int square(int n) { return n * n; }
static int negative(int n) { return -n; }
static void star(void) { putchar('*'); }
static void dash(void) { putchar('-'); }

static int (*unary)(int) = twice;
static int (*const table[4])(int) = { twice, square, &negative };
static void (*mark)(void);
static void (*marks[3])(void) = { star, 0, dash };

static int apply(int (*f)(int), int n, int times) {
    while (times-- > 0) n = f(n);
    return n;
}

static void each(void (*first)(void), void (*second)(void)) {
    if (first) first();
    if (second) (*second)();
    if (!first == !second) putchar('=');
}

static void digit(int n) { putchar('0' + n); }

int main(void) {
    int (*f)(int) = square, (*local[2])(int) = { negative, twice };
    int i;
    digit(unary(3)); digit((*unary)(4)); digit((&square)(2)); digit((*twice)(1)); digit((**f)(3));
    unary = f;
    digit(unary == square); digit(unary != f); digit(f == twice); digit(f == table[1]); digit(table[3] == 0); digit(!unary);
    for (i = 0; i < 3; i++) digit(table[i](2) + 4);
    digit(local[0](-1)); digit(local[1](4)); digit((i ? local[1] : f)(3)); digit(apply(square, 2, 1)); digit(apply(twice, 1, 3));
    digit(apply(i > 5 ? square : negative, 7, 2));
    putchar('\n');
    each(mark, star); each(dash, star); each(mark, marks[1]);
    mark = marks[2];
    each(mark, 0);
    marks[1] = mark;
    for (i = 0; i < 3; i++) marks[i]();
    putchar('\n');
    mark = 0;
    return mark ? 1 : f == local[0] || table[i];
}
