/* Splits its input into names, numbers, texts in quotes and marks: a line for each, with the line on which it begins and its kind. */
#include <stdio.h>

enum { ROOM = 32 };

static int line = 1;
static int ahead; /* the next byte, -1 at the end */
static char token[ROOM];
static int length;

static void advance(void) {
    if (ahead == '\n') line++;
    ahead = getchar();
}

/* Puts the next byte into the token; what has no room there is lost. */
static void take(void) {
    if (length < ROOM) token[length++] = ahead;
    advance();
}

static _Bool is_letter(int c) { return (c >= 'a' && c <= 'z') || (c >= 'A' && c <= 'Z') || c == '_'; }
static _Bool is_digit(int c) { return c >= '0' && c <= '9'; }
static _Bool is_blank(int c) { return c == ' ' || c == '\t' || c == '\n'; }

static void number(int n) {
    if (n > 9) number(n / 10);
    putchar('0' + n % 10);
}

/* A text goes on up to its closing quote, and a backslash takes the byte behind it along. */
static void quoted(void) {
    take();
    while (ahead != '"' && ahead != -1) {
        if (ahead == '\\') take();
        take();
    }
    if (ahead == '"') take();
}

/* Reads a token, and gives the letter of its kind. */
static int read(void) {
    length = 0;
    if (is_letter(ahead)) {
        while (is_letter(ahead) || is_digit(ahead)) take();
        return 'n';
    }
    if (is_digit(ahead)) {
        while (is_digit(ahead)) take();
        return 'd';
    }
    if (ahead == '"') {
        quoted();
        return 't';
    }
    take();
    if (token[0] == '<' || token[0] == '>' || token[0] == '=' || token[0] == '!') {
        if (ahead == '=') take();
    }
    return 'm';
}

int main(void) {
    int count = 0;
    ahead = getchar();
    while (1) {
        int i, began, kind;
        while (is_blank(ahead)) advance();
        if (ahead == -1) break;
        began = line;
        kind = read();
        count++;
        number(began);
        putchar(' ');
        putchar(kind);
        putchar(' ');
        for (i = 0; i < length; i++) putchar(token[i]);
        putchar('\n');
    }
    return count;
}
