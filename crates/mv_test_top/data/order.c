/* Sorts the lines of its input, at most 1,000 of them and 20,000 bytes in all, by merging: equal lines stay in order. */
#include <stdio.h>

enum { LINES = 1000, BYTES = 20000 };

static unsigned char bytes[BYTES];
static int starts[LINES], merged[LINES];
static int count;

/* Below 0, 0 or above 0, as the line at a comes before that at b, is equal to it or comes after it. */
static int order(int a, int b) {
    while (bytes[a] == bytes[b] && bytes[a] != '\n') {
        a++;
        b++;
    }
    if (bytes[a] == '\n' || bytes[b] == '\n') return (bytes[b] == '\n') - (bytes[a] == '\n');
    return bytes[a] - bytes[b];
}

static void merge(int from, int middle, int to) {
    int left = from, right = middle, i;
    for (i = from; i < to; i++) {
        _Bool is_left = left < middle && (right == to || order(starts[left], starts[right]) <= 0);
        merged[i] = is_left ? starts[left++] : starts[right++];
    }
    for (i = from; i < to; i++) starts[i] = merged[i];
}

static void sort(int from, int to) {
    int middle = from + (to - from) / 2;
    if (to - from < 2) return;
    sort(from, middle);
    sort(middle, to);
    merge(from, middle, to);
}

static void read(void) {
    int used = 0, c = getchar();
    while (c != -1) {
        starts[count++] = used;
        while (c != '\n' && c != -1) {
            bytes[used++] = c;
            c = getchar();
        }
        bytes[used++] = '\n';
        if (c != -1) c = getchar();
    }
}

static void write(void) {
    int i, at;
    for (i = 0; i < count; i++) {
        for (at = starts[i]; bytes[at] != '\n'; at++) putchar(bytes[at]);
        putchar('\n');
    }
}

int main(void) {
    read();
    sort(0, count);
    write();
}
