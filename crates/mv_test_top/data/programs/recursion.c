/* Functions that call themselves and one another. */
#include <stdio.h>

static void number(unsigned n) {
    if (n > 9) number(n / 10);
    putchar('0' + n % 10);
}

static void line(int n) {
    if (n < 0) putchar('-');
    number(n < 0 ? -n : n);
    putchar('\n');
}

static int moves;

static int even(int n);
static int odd(int n) { return n == 0 ? 0 : even(n - 1); }
static int even(int n) { return n == 0 ? 1 : odd(n - 1); }

static int fibonacci(int n) { return n < 2 ? n : fibonacci(n - 1) + fibonacci(n - 2); }

static int ackermann(int m, int n) {
    if (m == 0) return n + 1;
    if (n == 0) return ackermann(m - 1, 1);
    return ackermann(m - 1, ackermann(m, n - 1));
}

static int divisor(int a, int b) { return b ? divisor(b, a % b) : a; }

static void hanoi(int discs, int from, int to, int over) {
    if (discs == 0) return;
    hanoi(discs - 1, from, over, to);
    if (discs > 3) { putchar(from); putchar(to); putchar(' '); }
    moves++;
    hanoi(discs - 1, over, to, from);
}

static unsigned power(unsigned base, unsigned exponent) {
    unsigned half;
    if (exponent == 0) return 1;
    half = power(base, exponent / 2);
    return half * half * (exponent % 2 ? base : 1);
}

static void backwards(void) {
    int c = getchar();
    if (c != -1) backwards();
    if (c > ' ') putchar(c);
}

int main(void) {
    line(even(100)); line(odd(100)); line(fibonacci(12)); line(ackermann(2, 3)); line(divisor(1071, 462));
    hanoi(6, 'a', 'b', 'c');
    putchar('\n');
    line(moves); line(power(3, 13)); line(power(7, 100));
    backwards();
    putchar('\n');
    return even(511);
}
