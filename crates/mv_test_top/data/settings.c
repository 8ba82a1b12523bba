/* Reads settings, lines `NAME = VALUE`, and writes every other line by them: `upper = 1` writes capitals, `mark = N` the number of the line before
   it in N digits, `skip = 1` leaves out empty lines. A setting that isn't known is told by its line. Each change is committed, so that
   a line that is only written asks for no setting. */
#include <stdio.h>
#include <multiverse.h>

enum { ROOM = 80, SETTINGS = 3, NAME = 6 };

static __attribute__((multiverse)) _Bool upper, skip;
static __attribute__((multiverse(0, 2, 4))) int mark;

/* The names of the settings, each in NAME bytes. */
static const char names[] = "upper\0mark\0\0skip\0";

static char line[ROOM];
static int length, number;

static _Bool read(void) {
    int c = getchar();
    if (c == -1) return 0;
    for (length = 0; c != -1 && c != '\n'; c = getchar())
        if (length < ROOM) line[length++] = c;
    number++;
    return 1;
}

static void digits(int n, int count) {
    if (count > 1) digits(n / 10, count - 1);
    putchar('0' + n % 10);
}

static __attribute__((multiverse)) void write(void) {
    if (skip && length == 0) return;
    if (mark) {
        digits(number, mark);
        putchar(' ');
    }
    for (int i = 0; i < length; i++) {
        int c = line[i];
        putchar(upper && c >= 'a' && c <= 'z' ? c - 'a' + 'A' : c);
    }
    putchar('\n');
}

static void set_upper(int value) { upper = value; }
static void set_mark(int value) { mark = value; }
static void set_skip(int value) { skip = value; }
static void (*const setters[SETTINGS])(int) = { set_upper, set_mark, set_skip };

/* Whether the line begins with the name of a setting. */
static _Bool is_named(int setting) {
    int i = 0;
    while (names[setting * NAME + i] != 0 && i < length && line[i] == names[setting * NAME + i]) i++;
    return i < length && names[setting * NAME + i] == 0 && line[i] == ' ';
}

/* Where the value of a setting begins, 0 where the line sets nothing. */
static int value_at(void) {
    int i;
    for (i = 1; i + 3 < length; i++)
        if (line[i] == ' ' && line[i + 1] == '=' && line[i + 2] == ' ') return i + 3;
    return 0;
}

static _Bool set(int from) {
    int value = 0;
    for (int i = from; i < length; i++) {
        if (line[i] < '0' || line[i] > '9') return 0;
        value = 10 * value + (line[i] - '0');
    }
    for (int setting = 0; setting < SETTINGS; setting++) {
        if (is_named(setting)) {
            setters[setting](value);
            multiverse_commit();
            return 1;
        }
    }
    return 0;
}

int main(void) {
    int unknown = 0;
    multiverse_commit();
    while (read()) {
        int from = value_at();
        if (!from) write();
        else if (!set(from)) {
            unknown++;
            putchar('?');
            digits(number, 2);
            putchar('\n');
        }
    }
    return unknown;
}
