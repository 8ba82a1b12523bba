/* CRC-32 of 2,000 pseudo-random bytes, by a table and bit by bit. */
#include <stdio.h>

static unsigned table[256];
static const char digits[] = "0123456789abcdef";
static unsigned char bytes[2000];

static void make(void) {
    int i, j;
    for (i = 0; i < 256; i++) {
        unsigned c = i;
        for (j = 0; j < 8; j++) {
            if (c & 1) c = c >> 1 ^ 0xedb88320u;
            else c = c >> 1;
        }
        table[i] = c;
    }
}

static void fill(void) {
    unsigned x = 12345;
    int i;
    for (i = 0; i < 2000; i++) {
        x = x * 1103515245u + 12345u;
        bytes[i] = x >> 16;
    }
}

static unsigned by_table(int length) {
    unsigned c = ~0u;
    int i;
    for (i = 0; i < length; i++) c = table[(c ^ bytes[i]) & 255] ^ c >> 8;
    return ~c;
}

static unsigned by_bits(int length) {
    unsigned c = ~0u;
    int i, j;
    for (i = 0; i < length; i++) {
        c ^= bytes[i];
        for (j = 0; j < 8; j++) c = c >> 1 ^ (0xedb88320u & -(c & 1));
    }
    return ~c;
}

int main(void) {
    unsigned a, b;
    int i;
    make();
    fill();
    a = by_table(2000);
    b = by_bits(500);
    for (i = 0; i < 8; i++) putchar(digits[a >> 28 - 4 * i & 15]);
    return (a ^ b) & 255;
}
