/* Only what is needed is evaluated by &&, || and ?:. */
#include <stdio.h>

static int told(int letter, int value) {
    putchar(letter);
    return value;
}

static void result(int value) {
    putchar('=');
    putchar('0' + value);
    putchar('\n');
}

static int (*none)(void);

int main(void) {
    int i = 0;
    result(told('a', 0) && told('b', 1));
    result(told('a', 2) && told('b', 0));
    result(told('a', 3) && told('b', -1));
    result(told('a', 0) || told('b', 0));
    result(told('a', 0) || told('b', 4));
    result(told('a', 5) || told('b', 0));
    result(told('a', 1) ? told('b', 2) : told('c', 3));
    result(told('a', 0) ? told('b', 2) : told('c', 3));
    result(told('a', 0) && told('b', 1) || told('c', 1) && told('d', 1));
    result((told('a', 1) || told('b', 1)) && (told('c', 0) || told('d', 1)));
    result(told('a', 0) ? 1 : told('b', 0) ? 2 : told('c', 1) ? 3 : 4);
    result(!told('a', 0) + !!told('b', 7));
    result(none && none());
    result(!none);
    result(i && 1 / i);
    result(i || i++ || i);
    if (!(i > 0 && told('x', 0))) result(i);
    return told('a', 0) || told('b', 9);
}
