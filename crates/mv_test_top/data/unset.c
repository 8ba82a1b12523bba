/* A handler that nobody has set: the call through it traps. */
static __attribute__((multiverse)) int (*handler)(int);

static int twice(int value)
{
    return handler(handler(value));
}

int main(void)
{
    return twice(3);
}
