/* A state machine whose states are the functions of a table: takes the comments of C out of its input. */
#include <stdio.h>

enum state { CODE, SLASH, LINE, BLOCK, STAR, STATES };

static int code(int c) {
    if (c == '/') return SLASH;
    putchar(c);
    return CODE;
}

static int slash(int c) {
    if (c == '/') return LINE;
    if (c == '*') return BLOCK;
    putchar('/');
    return code(c);
}

static int line(int c) {
    if (c != '\n') return LINE;
    putchar(c);
    return CODE;
}

static int block(int c) { return c == '*' ? STAR : BLOCK; }

static int star(int c) {
    if (c != '/') return block(c);
    putchar(' ');
    return CODE;
}

static int (*const steps[STATES])(int) = { code, slash, line, block, star };

int main(void) {
    int state = CODE;
    int c;
    while ((c = getchar()) != -1) state = steps[state](c);
    if (state == SLASH) putchar('/');
    return state == BLOCK || state == STAR;
}
