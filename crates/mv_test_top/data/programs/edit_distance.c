/* The edit distance of each two lines of the input, of at most 60 bytes each. */
#include <stdio.h>

enum { MOST = 60 };

static unsigned char left[MOST], right[MOST];
static int left_length, right_length;
static int costs[(MOST + 1) * (MOST + 1)];

static void number(unsigned n) {
    if (n > 9) number(n / 10);
    putchar('0' + n % 10);
}

static int lesser(int a, int b) { return a < b ? a : b; }

static int distance(void) {
    const int width = right_length + 1;
    int i, j;
    for (j = 0; j < width; j++) costs[j] = j;
    for (i = 1; i <= left_length; i++) {
        costs[i * width] = i;
        for (j = 1; j < width; j++) {
            int change = costs[(i - 1) * width + j - 1] + (left[i - 1] != right[j - 1]);
            int leave = costs[(i - 1) * width + j] + 1, put = costs[i * width + j - 1] + 1;
            costs[i * width + j] = lesser(change, lesser(leave, put));
        }
    }
    return costs[left_length * width + right_length];
}

int main(void) {
    int c;
    do {
        left_length = right_length = 0;
        while ((c = getchar()) != '\n' && c != -1) left[left_length++] = c;
        while (c != -1 && (c = getchar()) != '\n' && c != -1) right[right_length++] = c;
        number(distance());
        putchar(c == -1 ? '\n' : ' ');
    } while (c != -1);
}
