#include <stdio.h>
#include <multiverse.h>

__attribute__((multiverse)) int smp; // a switch: its values are 0 and 1
int taken;

// an attributed function: it is built for each value of the switches that it reads
__attribute__((multiverse)) void lock(void) {
    if (smp) taken++;
}

static void report(void) {
    lock();
    putchar('0' + taken);
}

int main(void) {
    multiverse_commit();
    report(); // bound to smp = 0: writes 0
    smp = 1;
    report(); // still bound to 0, though smp is 1 now: writes 0
    multiverse_commit();
    report(); // bound to 1: writes 1
    multiverse_revert();
    smp = 0;
    report(); // free again, and reads smp: writes 1
    putchar('\n');
}
