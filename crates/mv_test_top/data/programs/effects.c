/* Values of assignments and steps, in chains and in conditions. */
#include <stdio.h>

static void number(unsigned n) {
    if (n > 9) number(n / 10);
    putchar('0' + n % 10);
}

static void line(int n) {
    if (n < 0) putchar('-');
    number(n < 0 ? -n : n);
    putchar('\n');
}

static int a[4];
static unsigned char byte = 250;

int main(void) {
    int i = 0, j, k;
    i = j = k = 5;
    line(i + j + k);
    i += j -= k *= 2; line(i); line(j);
    a[i] = a[1] = a[2] = 7; line(a[0]);
    a[1] += a[2]++; line(a[1]); line(a[2]);
    a[--a[0] - 4] = 6; line(a[2]);
    while (i++ < 3) line(i);
    if ((j = k - 10)) line(1); else line(j);
    line(byte += 10); line(byte--); line(byte-- == 3); line(--byte); line(byte -= 3);
    line((byte = 1023) == 255); line(~byte); line(-byte); line(byte++ + 1); line(byte);
    k = 1;
    k <<= 2; line(k); k |= k << 3; line(k); k ^= k >> 1; line(k); k &= ~2; line(k);
    k = !k; line(k);
    j = -17; j /= 4; line(j); j %= 3; line(j); j >>= 5; line(j);
    return (i = 3) + 1;
}
