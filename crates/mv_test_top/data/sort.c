/* Sorts the bytes of each line of its input, at most 256 of them, by a heap: upwards, and then downwards. */
#include <stdio.h>
#include <multiverse.h>

__attribute__((multiverse)) static _Bool downwards;

static unsigned char items[256];
static int count;

__attribute__((multiverse)) static _Bool comes_first(int a, int b) {
    return downwards ? a > b : a < b;
}

static void swap(int i, int j) {
    unsigned char kept = items[i];
    items[i] = items[j];
    items[j] = kept;
}

/* Lets an item sink until both below it come before it. */
static void sink(int i, int end) {
    while (2 * i + 1 < end) {
        int below = 2 * i + 1;
        if (below + 1 < end && comes_first(items[below], items[below + 1])) below++;
        if (!comes_first(items[i], items[below])) return;
        swap(i, below);
        i = below;
    }
}

static void sort(void) {
    int i;
    for (i = count / 2; i > 0; i--) sink(i - 1, count);
    for (i = count; i > 1; i--) {
        swap(0, i - 1);
        sink(0, i - 1);
    }
}

static void write(_Bool down) {
    int i;
    downwards = down;
    multiverse_commit();
    sort();
    for (i = 0; i < count; i++) putchar(items[i]);
    putchar('\n');
}

int main(void) {
    int c;
    do {
        count = 0;
        while ((c = getchar()) != -1 && c != '\n') {
            items[count] = c;
            count++;
        }
        if (count > 0) {
            write(0);
            write(1);
        }
    } while (c != -1);
}
