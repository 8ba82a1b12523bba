/* Prints the values of integer and character constants as the C compiler has them, one row a
   constant for the tables of the lexer's tests: gcc -std=c11 -funsigned-char constants.c */
#include <stdio.h>

static void row(const char *spelling, const char *type, unsigned value) {
    printf("    (\"");
    for (; *spelling; spelling++) {
        if (*spelling == '\\' || *spelling == '"') putchar('\\');
        putchar(*spelling);
    }
    printf("\", %s(%u)),\n", type, value);
}

#define ROW(c) row(#c, _Generic((c), int: "Outcome::Int", unsigned: "Outcome::UInt"), (unsigned)(c));

static const unsigned char string[] = "\a\b\f\n\r\t\v\\\'\"\?\0\1234\x41G\377'é";

int main(void) {
    ROW(0) ROW(1) ROW(42) ROW(2147483647)
    ROW(0u) ROW(7U) ROW(2147483648u) ROW(4294967295U)
    ROW(00) ROW(017) ROW(017777777777) ROW(020000000000) ROW(037777777777)
    ROW(017u) ROW(037777777777U) ROW(00000000000000000000000000001)
    ROW(0x0) ROW(0X1f) ROW(0xaBcDeF) ROW(0x7fffffff) ROW(0x80000000) ROW(0xffffffff)
    ROW(0x1Fu) ROW(0XFFFFFFFFU) ROW(0x0000000000000000000000000000001)
    printf("\n");
    ROW('a') ROW(' ') ROW('"') ROW('~')
    ROW('\n') ROW('\t') ROW('\r') ROW('\a') ROW('\b') ROW('\f') ROW('\v')
    ROW('\\') ROW('\'') ROW('\"') ROW('\?')
    ROW('\0') ROW('\7') ROW('\12') ROW('\012') ROW('\101') ROW('\377')
    ROW('\x0') ROW('\xA') ROW('\x41') ROW('\xff') ROW('\x00041')
    printf("\n");
    for (unsigned i = 0; i + 1 < sizeof string; i++) printf("%u ", string[i]);
    printf("\n");
    return 0;
}
