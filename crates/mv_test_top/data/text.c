/* Writes texts and numbers, as a program without printf does: a table of the numbers of its input. Texts stand one after the other in an array,
   each up to a 0, and are known by where they begin. */
#include <stdio.h>

static const char texts[] = "number\0hexadecimal\0sum \0, of \0 numbers\n";
enum { NUMBER = 0, HEXADECIMAL = 7, SUM = 19, OF = 24, NUMBERS = 30 };
enum { WIDTH = 13 };

static char digits[10];
static int used;

static void text(int from) {
    while (texts[from] != 0) putchar(texts[from++]);
}

static int length(int from) {
    int to = from;
    while (texts[to]) to++;
    return to - from;
}

static void spaces(int count) {
    while (count-- > 0) putchar(' ');
}

/* The digits of a number, the last one first. */
static void divide(unsigned int n, unsigned int base) {
    used = 0;
    do {
        unsigned int digit = n % base;
        digits[used++] = digit < 10 ? '0' + digit : 'a' + digit - 10;
        n /= base;
    } while (n != 0);
}

static void decimal(int n, int width) {
    divide(n < 0 ? -(unsigned int)n : n, 10);
    spaces(width - used - (n < 0));
    if (n < 0) putchar('-');
    while (used > 0) putchar(digits[--used]);
}

static void hexadecimal(unsigned int n, int width) {
    divide(n, 16);
    spaces(width - 8);
    for (int i = used; i < 8; i++) putchar('0');
    while (used > 0) putchar(digits[--used]);
}

static void heading(int from) {
    spaces(WIDTH - length(from));
    text(from);
}

int main(void) {
    int c = getchar(), sum = 0, count = 0;
    heading(NUMBER);
    heading(HEXADECIMAL);
    putchar('\n');
    while (c != -1) {
        int n = 0;
        _Bool is_negative = c == '-';
        if (is_negative) c = getchar();
        for (; c >= '0' && c <= '9'; c = getchar()) n = 10 * n + (c - '0');
        if (is_negative) n = -n;
        decimal(n, WIDTH);
        hexadecimal(n, WIDTH);
        putchar('\n');
        sum += n;
        count++;
        while (c == '\n' || c == ' ') c = getchar();
    }
    text(SUM);
    decimal(sum, 0);
    text(OF);
    decimal(count, 0);
    text(NUMBERS);
}
