/* More values alive at once than there are registers, and expressions as deep as they come. */
#include <stdio.h>

static void number(unsigned n) {
    if (n > 9) number(n / 10);
    putchar('0' + n % 10);
}

static int mixed(int a, int b, int c, int d) {
    int e = a + b, f = b + c, g = c + d, h = d + a, i = a * b, j = b * c, k = c * d, l = d * a;
    int m = e - f, n = f - g, o = g - h, p = h - e, q = i ^ j, r = j | k, s = k & l, t = l ^ i;
    int row[30], at;
    for (at = 0; at < 30; at++) {
        row[at] = a + b * c - d + e * f - g + h * i - j + k * l - m + n * o - p + q * r - s + t;
        a += row[at] & 3; b ^= at; t = s; s = r; r = q; q = p; p = o; o = n; n = m; m = row[at];
    }
    return (a + (b - (c + (d - (e + (f - (g + (h - (i + (j - (k + (l - (m + (n - (o + (p - (q + (r - (s + (t - row[29]))))))))))))))))))))
        ^ (((a * b + c * d) * (e * f + g * h) + (i * j + k * l) * (m * n + o * p)) * 3 + (q * r + s * t)) * 5 + row[0];
}

static int chosen(int n) {
    return n < 1 ? 1 : n < 2 ? n * 2 : n < 3 ? n * 3 : n < 4 ? n * 4 : n < 5 ? n * 5 : -n;
}

int main(void) {
    int i, sum = 0;
    for (i = 0; i < 8; i++) {
        number(mixed(i, i * 7 - 20, 1000 - i * i, 3 - i));
        putchar(i % 4 == 3 ? '\n' : ' ');
        sum += chosen(i) + (i + (i * (i + (i * (i + (i * (i + (i * (i + 1)))))))));
    }
    number(sum);
    putchar('\n');
    return chosen(chosen(chosen(3) - 8) - 20);
}
