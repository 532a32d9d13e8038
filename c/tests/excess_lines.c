/* Has the example read lines of `excess` whose elements are called as the words behind a constraint are. */
#define main main_of_the_example
#include "diagnose.c"
#undef main

int main(void) {
    char lines[] =
        "part 1 over elements 3 held 5 due 3 : repeat off conflict\n"
        "c4 : distance repeat off 41 conflict off -1000000 nm\n"
        "c5 : on repeat off repeat off 5 nm\n"
        "c6 : angle conflict off 1/1 conflict off 500000000 ppb\n"
        "c7 : tangent off conflict conflict off 0 nm turned drawn + placed -1\n"
        "c8 : block repeat 0 0 off 4 0 conflict -1.5 3 repeat off 0 nm\n"
        "c9 : on repeat conflict\n";
    print_excess(lines);
    return 0;
}
