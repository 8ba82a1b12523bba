/* A queue of bounded length between two ends: letters are put in at one, and each `.` takes one out at the other and writes it. A `!` writes how
   many wait. What finds the queue full is dropped, and what finds it empty writes `-`. The status is the number of the dropped. */
#include <stdio.h>

enum { ROOM = 5 };

static char items[ROOM];
static unsigned int first, count, dropped;

static _Bool put(int item) {
    if (count == ROOM) return 0;
    items[(first + count) % ROOM] = item;
    count++;
    return 1;
}

static int take(void) {
    int item;
    if (count == 0) return -1;
    item = items[first];
    first = (first + 1) % ROOM;
    count--;
    return item;
}

static void serve(void) {
    int item = take();
    putchar(item == -1 ? '-' : item);
}

int main(void) {
    int c;
    while ((c = getchar()) != -1) {
        switch (c) {
            case '.':
                serve();
                break;
            case '!':
                putchar('0' + count);
                break;
            case '\n':
                while (count > 0) serve();
                putchar('\n');
                break;
            default:
                if (!put(c)) dropped++;
        }
    }
    return dropped;
}
