/* Takes eight turns, and asks the operator before each whether to tell its number: `--at 3:loud=1,6:loud=0` has three of them told. */
#include <stdio.h>
#include <multiverse.h>

static __attribute__((multiverse)) _Bool loud;

static __attribute__((multiverse)) void tell(int turn) {
    putchar(loud ? '0' + turn : '.');
}

int main(void) {
    for (int turn = 1; turn <= 8; turn++) {
        multiverse_poll();
        tell(turn);
    }
    putchar('\n');
}
