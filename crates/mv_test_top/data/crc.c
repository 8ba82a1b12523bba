/* The CRC-32 of its input, in hexadecimal. A table of all bytes is worth its price for long inputs alone: it is made once the input turns out
   to be one, and from then on, by a commit, each byte is looked up without a test. */
#include <stdio.h>
#include <multiverse.h>

enum { LONG = 300 };

static __attribute__((multiverse)) _Bool has_table;
static unsigned int table[256];

static unsigned int eight_bits(unsigned int word) {
    int i;
    for (i = 0; i < 8; i++) word = word & 1 ? word >> 1 ^ 0xEDB88320u : word >> 1;
    return word;
}

__attribute__((multiverse)) static unsigned int with_byte(unsigned int sum, int c) {
    if (has_table) return sum >> 8 ^ table[(sum ^ c) & 255];
    return eight_bits(sum ^ c);
}

static void make_table(void) {
    int i;
    for (i = 0; i < 256; i++) table[i] = eight_bits(i);
    has_table = 1;
    multiverse_commit();
}

int main(void) {
    unsigned int sum = 0xFFFFFFFF;
    int c, count = 0, i;
    multiverse_commit();
    while ((c = getchar()) != -1) {
        if (count++ == LONG) make_table();
        sum = with_byte(sum, c);
    }
    sum = ~sum;
    for (i = 28; i >= 0; i -= 4) {
        int digit = sum >> i & 15;
        putchar(digit < 10 ? '0' + digit : 'a' + digit - 10);
    }
    putchar('\n');
    return has_table;
}
