/* A switch with fall-through, with default in each place, with none, and within loops. */
#include <stdio.h>

enum kind { SPACE, DIGIT, LETTER, OTHER };

static enum kind kind(int c) {
    switch (c) {
        case ' ': case '\t': case '\n': return SPACE;
        case '0': case '1': case '2': case '3': case '4': return DIGIT;
        default: if (c >= 'a' && c <= 'z') return LETTER;
        case '!': return OTHER;
    }
}

static void fall(int n) {
    switch (n) {
        case 3: putchar('3');
        case 2: putchar('2');
        default: putchar('d');
        case 1: putchar('1'); break;
        case -1: putchar('m');
        case 0: ;
    }
    putchar('\n');
}

static void narrow(unsigned char c) {
    switch (c) {
        case 255: putchar('t'); break;
        case 0x41: putchar('A');
    }
    switch (c & 1u) { case 1u: putchar('o'); break; case 0: putchar('e'); break; }
    switch (c) { }
    switch (c) { default: putchar('.'); }
}

int main(void) {
    int i, c;
    for (i = -2; i < 5; i++) fall(i);
    narrow(255); narrow('A'); narrow(2); putchar('\n');
    while ((c = getchar()) != -1) {
        switch (kind(c)) {
            case SPACE: continue;
            case DIGIT:
                for (i = c - '0'; i; i--) {
                    if (i == 3) break;
                    putchar('*');
                }
                break;
            case LETTER: {
                int upper = c - 32;
                switch (c) {
                    case 'q': putchar('?');
                    case 'z': putchar(c); break;
                    default: putchar(upper);
                }
                break;
            }
            default: putchar('#');
        }
    }
    putchar('\n');
    switch (2147483647 + i) { case -2147483647 - 1: return 1; case 2147483647: return 2; }
    return 3;
}
