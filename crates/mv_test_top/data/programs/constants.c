/* The spellings of constants, and constants computed from them. */
#include <stdio.h>

enum { ZERO, ONE, TEN = 10, ELEVEN, NEGATIVE = -5, AFTER, MASK = 1 << 4 | 0x0F, SIZE = (TEN + 2) * 3 / 4 };
enum color { RED = 'r', GREEN = 'g', BLUE = RED + 1 };

static void number(unsigned n) {
    if (n > 9) number(n / 10);
    putchar('0' + n % 10);
}

static void line(int n) {
    if (n < 0) putchar('-');
    number(n < 0 ? -n : n);
    putchar('\n');
}

static const int table[SIZE] = { 0, 017, 0x1f, 0XfF, 2147483647, '\n', '\'', '\\', '\0' };
static unsigned large[] = { 4294967295u, 0xFFFFFFFF, 037777777777, 2147483648U, -1 };
static int computed[] = { 7 / 2, -7 / 2, -7 % 3, 1 ? 2 : 3, 5 > 3 && 2 != 2, !0 + ~0, (char) 300, (signed char) 200, 'a' + 1, -1 >> 1, -1u >> 31, 0 && 1 / 0 };
static const char text[] = "tab\t quote\" back\\ octal\101 hex\x42 end\n";
static char padded[8] = "four";

int main(void) {
    enum { HERE = TEN * TEN } here = HERE;
    enum color color = BLUE;
    int i;
    for (i = 0; i < SIZE; i++) line(table[i]);
    for (i = 0; i < 5; i++) line(large[i] / 2);
    for (i = 0; i < 12; i++) line(computed[i]);
    for (i = 0; text[i]; i++) putchar(text[i]);
    for (i = 0; i < 8; i++) putchar(padded[i] ? padded[i] : '.');
    putchar('\n');
    line(ZERO); line(ELEVEN); line(AFTER); line(MASK); line(here); line(color == 's'); line(GREEN);
    return '\377';
}
