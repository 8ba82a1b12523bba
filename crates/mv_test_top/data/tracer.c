/* Counts the lines and bytes of its input. `!0` makes it quiet, `!1` has it write each byte, `!2` turns traces on and off. */
#include <stdio.h>
#include <multiverse.h>
enum level { QUIET, LINES, BYTES };
static enum level logging __attribute__((multiverse)) = QUIET;
static _Bool tracing __attribute__((multiverse)) = 0;
static unsigned lines, bytes;
static unsigned char digits[10];
__attribute__((multiverse)) static void note_byte(int c) { if (logging == BYTES) putchar(c); bytes++; }
__attribute__((multiverse)) static void note_line(void) { lines++; if (logging != QUIET) putchar('\n'); if (tracing) putchar('t'); }
__attribute__((multiverse)) static void enter(int c) { if (tracing) putchar(c); }
__attribute__((multiverse)) static int verbose(void) { return tracing || logging == BYTES; }
static void number(unsigned n) {
    int k = 0;
    do { digits[k] = 48 + n % 10; k++; n /= 10; } while (n);
    while (k > 0) { k--; putchar(digits[k]); }
}
static void quiet(void) { logging = QUIET; }
static void loud(void) { logging = BYTES; }
static void trace(void) { tracing = !tracing; }
static void (*const handlers[3])(void) = { quiet, loud, trace };
int main(void) {
    int c;
    while ((c = getchar()) != -1) {
        if (c == '!') {
            c = getchar();
            enter(c);
            if (c >= '0' && c <= '2') { handlers[c - '0'](); multiverse_commit(); }
        } else if (c == '\n') note_line();
        else note_byte(c);
    }
    number(lines); putchar(' '); number(bytes); putchar('\n');
    return verbose();
}
