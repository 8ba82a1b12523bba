/* A machine with a stack, whose instructions are the functions of a table; its program writes the squares up to 144. */
#include <stdio.h>

enum code { PUSH, LOAD, STORE, ADD, MULTIPLY, LESS, JUMP, JUMP_ZERO, PRINT, HALT, CODES };

static const int program[] = {
    PUSH, 1, STORE, 0,
    LOAD, 0, PUSH, 13, LESS, JUMP_ZERO, 26,
    LOAD, 0, LOAD, 0, MULTIPLY, PRINT,
    LOAD, 0, PUSH, 1, ADD, STORE, 0, JUMP, 4,
    HALT
};
static int stack[16], height, memory[4], at;
static _Bool running = 1;

static void number(unsigned n) {
    if (n > 9) number(n / 10);
    putchar('0' + n % 10);
}

static int word(void) { return program[at++]; }
static int pop(void) { return stack[--height]; }
static void push(int value) { stack[height++] = value; }

static void push_word(void) { push(word()); }
static void load(void) { push(memory[word()]); }
static void store(void) { memory[word()] = pop(); }
static void add(void) { int b = pop(); push(pop() + b); }
static void multiply(void) { int b = pop(); push(pop() * b); }
static void less(void) { int b = pop(); push(pop() < b); }
static void jump(void) { at = program[at]; }
static void jump_zero(void) { if (pop()) at++; else jump(); }
static void print(void) { number(pop()); putchar(' '); }
static void halt(void) { running = 0; }

static void (*const steps[CODES])(void) = { push_word, load, store, add, multiply, less, jump, jump_zero, print, halt };

int main(void) {
    int count = 0;
    while (running) {
        steps[word()]();
        count++;
    }
    putchar('\n');
    return count;
}
