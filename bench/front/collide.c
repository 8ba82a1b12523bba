// Prints names that all begin their search in the same few places of a hash table with a fixed hash: collide NUMBER
//
// The hash is that of the toolchain's standard library for a slice of bytes: the length, and then each byte, folded into 64 bits by a multiplication.
// A table of 32,768 places looks first at those that the lowest bits name.
#include <stdint.h>
#include <stdio.h>
#include <stdlib.h>

static const uint64_t MULTIPLIER = 0x9e3779b97f4a7c15ULL;
static const char LETTERS[] = "abcdefghijklmnopqrstuvwxyzABCDEFGHIJKLMNOPQRSTUVWXYZ_0123456789";
enum { LENGTH = 5, FIRST_LETTERS = 53, ALL_LETTERS = 63, PLACES = 32768, WANTED = 7 };

static uint64_t folded(uint64_t a, uint64_t b) {
    unsigned __int128 product = (unsigned __int128)a * b;
    return (uint64_t)product ^ (uint64_t)(product >> 64);
}

static uint64_t with_byte(uint64_t state, uint8_t byte) {
    return folded(state ^ ((uint64_t)byte | (uint64_t)byte << 8 | (uint64_t)byte << 16), MULTIPLIER ^ 2);
}

static long left;

static void names(char *name, int at, uint64_t state) {
    if (left == 0) return;
    if (at == LENGTH) {
        if (((uint32_t)(state ^ state >> 32) & (PLACES - 1)) < WANTED) {
            puts(name);
            left--;
        }
        return;
    }
    for (int letter = 0; letter < (at == 0 ? FIRST_LETTERS : ALL_LETTERS); letter++) {
        name[at] = LETTERS[letter];
        names(name, at + 1, with_byte(state, (uint8_t)LETTERS[letter]));
    }
}

int main(int count, char **words) {
    char name[LENGTH + 1] = "";
    left = count > 1 ? atol(words[1]) : 10;
    names(name, 0, folded(0x243f6a8885a308d3ULL ^ LENGTH, MULTIPLIER ^ 16));
    return 0;
}
