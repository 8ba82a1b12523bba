/* Counts the words of the input in a hash table, and writes them in order of the alphabet. */
#include <stdio.h>

enum { SLOTS = 64, ROOM = 1000, LONGEST = 20 };

static unsigned char letters[ROOM];
static short starts[SLOTS], counts[SLOTS];
static int used;

static void number(unsigned n) {
    if (n > 9) number(n / 10);
    putchar('0' + n % 10);
}

static int order(int a, int b) {
    while (letters[a] && letters[a] == letters[b]) { a++; b++; }
    return letters[a] - letters[b];
}

static void add(int start) {
    unsigned hash = 5381;
    int i;
    for (i = start; letters[i]; i++) hash = hash * 33 ^ letters[i];
    for (i = hash % SLOTS; counts[i] && order(starts[i], start); i = (i + 1) % SLOTS) ;
    if (counts[i]++ == 0) {
        starts[i] = start;
        while (letters[used]) used++;
        used++;
    }
}

static void write(void) {
    for (;;) {
        int least = -1, i;
        for (i = 0; i < SLOTS; i++)
            if (counts[i] && (least < 0 || order(starts[i], starts[least]) < 0)) least = i;
        if (least < 0) return;
        for (i = starts[least]; letters[i]; i++) putchar(letters[i]);
        putchar(' ');
        number(counts[least]);
        putchar('\n');
        counts[least] = 0;
    }
}

int main(void) {
    int c, length = 0;
    do {
        c = getchar();
        if (c >= 'A' && c <= 'Z') c += 'a' - 'A';
        if (c >= 'a' && c <= 'z') {
            if (length < LONGEST) letters[used + length++] = c;
        } else if (length) {
            letters[used + length] = 0;
            add(used);
            length = 0;
        }
    } while (c != -1);
    write();
    return used;
}
