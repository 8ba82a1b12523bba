/* The operations of a device, as a kernel has them: global pointers that a commit binds. A call through a bound one goes to what is bound, and doesn't look at
   memory, until the next commit or revert. */
#include <stdio.h>
#include <multiverse.h>

static void plain(int byte) { putchar(byte); }
static void upper(int byte) { putchar(byte >= 'a' && byte <= 'z' ? byte - 'a' + 'A' : byte); }
static int unknown(void) { return '?'; }
static int ready(void) { return '!'; }

// pointer switches: an ops table whose entries are seldom changed and often called
static __attribute__((multiverse)) void (*put)(int) = plain;
static __attribute__((multiverse)) int (*status)(void) = unknown;

static void report(void) {
    put('o');
    put('k');
    put(status());
    put('\n');
}

int main(void) {
    void (*kept)(int) = put; // a pointer that is kept: it leads to plain, whatever is committed
    multiverse_commit();
    report(); // both are bound: ok?
    put = upper;
    status = ready;
    report(); // still bound to what they were: ok?
    multiverse_commit_refs(&put);
    report(); // put alone is bound anew: OK?
    kept('k');
    kept('\n');
    multiverse_commit();
    put = 0;
    report(); // a bound call doesn't look at memory: OK!
    put = plain;
    multiverse_revert();
    report(); // free again: ok!
}
