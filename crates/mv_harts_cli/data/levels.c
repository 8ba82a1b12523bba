/* Three harts share one text: hart 0 commits two levels, hart 1 never polls, and hart 2 adopts what hart 0 commits: `./mvharts examples/levels.c 3 7 100000`. */
#include <stdio.h>
#include <multiverse.h>

static __attribute__((multiverse(0, 1, 2))) int level;

// writes the level that the hart is bound to, or where it is bound to none its own
static __attribute__((multiverse)) void tell(void) {
    putchar('0' + level);
}

int main(void) {
    int hart = getchar(); // each hart reads the digit that is its number
    if (hart == '0') {
        for (level = 1; level <= 2; level++) {
            multiverse_commit(); // waits until each other hart has parked or ended
            tell();
        }
    } else if (hart == '1') {
        tell();
    } else {
        for (int times = 0; times < 2; times++) {
            while (!multiverse_poll()) // parks here while a commit is wanted, and answers 1 where it has adopted one
                ;
            tell();
        }
    }
    return 0;
}
