/* The CRC-32 and the Adler-32 of the input, the first by a table. */
#include <stdio.h>

static unsigned table[256];

static void fill(void) {
    unsigned i, bit;
    for (i = 0; i < 256; i++) {
        unsigned word = i;
        for (bit = 0; bit < 8; bit++) word = word & 1 ? 0xedb88320 ^ word >> 1 : word >> 1;
        table[i] = word;
    }
}

static void hex(unsigned word) {
    int shift;
    for (shift = 28; shift >= 0; shift -= 4) {
        int digit = word >> shift & 15;
        putchar(digit < 10 ? '0' + digit : 'a' + digit - 10);
    }
    putchar('\n');
}

int main(void) {
    unsigned crc = ~0u, low = 1, high = 0;
    int c;
    fill();
    while ((c = getchar()) != -1) {
        crc = table[(crc ^ c) & 255] ^ crc >> 8;
        low = (low + c) % 65521;
        high = (high + low) % 65521;
    }
    hex(~crc);
    hex(high << 16 | low);
}
