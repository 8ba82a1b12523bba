/* Evaluates each line of the input, an expression of numbers, + - * / %, parentheses and a sign, by recursive descent. */
#include <stdio.h>

static int next;
static _Bool wrong;

static void number(unsigned n) {
    if (n > 9) number(n / 10);
    putchar('0' + n % 10);
}

static void advance(void) {
    do next = getchar(); while (next == ' ');
}

static int sum(void);

static int primary(void) {
    int value = 0;
    if (next == '-') {
        advance();
        return -primary();
    }
    if (next == '(') {
        advance();
        value = sum();
        if (next == ')') advance(); else wrong = 1;
        return value;
    }
    if (next < '0' || next > '9') wrong = 1;
    for (; next >= '0' && next <= '9'; advance()) value = value * 10 + (next - '0');
    return value;
}

static int product(void) {
    int value = primary();
    while (next == '*' || next == '/' || next == '%') {
        int operator = next, right;
        advance();
        right = primary();
        if (operator == '*') value *= right;
        else if (right == 0) wrong = 1;
        else if (operator == '/') value /= right;
        else value %= right;
    }
    return value;
}

static int sum(void) {
    int value = product();
    while (next == '+' || next == '-') {
        _Bool minus = next == '-';
        int right;
        advance();
        right = product();
        value = minus ? value - right : value + right;
    }
    return value;
}

int main(void) {
    int lines = 0;
    for (advance(); next != -1; advance()) {
        int value;
        wrong = 0;
        value = sum();
        while (next != '\n' && next != -1) {
            wrong = 1;
            advance();
        }
        if (wrong) putchar('?');
        else {
            if (value < 0) putchar('-');
            number(value < 0 ? -value : value);
        }
        putchar('\n');
        lines++;
    }
    return lines;
}
