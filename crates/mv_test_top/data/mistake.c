/* Uses a name that isn't declared: it is refused. */
int main(void) {
    int total = 0;
    for (int i = 0; i < 10; i++) totl += i;
    return total;
}
