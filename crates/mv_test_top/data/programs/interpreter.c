/* Reads a program of eight instructions, > < + - . , [ ], up to a !, and runs it on the rest of the input. */
#include <stdio.h>

static unsigned char code[600], cells[100];
static short partners[600];
static int length;

static void read(void) {
    int open[20], height = 0, c;
    while ((c = getchar()) != '!' && c != -1) {
        code[length] = c;
        if (c == '[') open[height++] = length;
        else if (c == ']') {
            int from = open[--height];
            partners[length] = from;
            partners[from] = length;
        }
        length++;
    }
}

static void run(void) {
    int at, cell = 0, c;
    for (at = 0; at < length; at++) {
        switch (code[at]) {
            case '>': cell++; break;
            case '<': cell--; break;
            case '+': cells[cell]++; break;
            case '-': cells[cell]--; break;
            case '.': putchar(cells[cell]); break;
            case ',': c = getchar(); cells[cell] = c == -1 ? 0 : c; break;
            case '[': if (!cells[cell]) at = partners[at]; break;
            case ']': if (cells[cell]) at = partners[at];
        }
    }
}

int main(void) {
    read();
    run();
    return length % 256;
}
