/* Calls of every exported function, made from a seed. Prints a running checksum of what they
 * answer and leave, every thousand calls, and at the end how often each answer came.
 *   calls SEED CALLS */
#include <inttypes.h>
#include <stdio.h>
#include <stdlib.h>

#include "calls.h"

/* A number of the command line. */
static uint64_t number(const char *text) {
    char *end;
    uint64_t n = strtoull(text, &end, 10);
    if (*text < '0' || *text > '9' || *end != '\0') {
        fprintf(stderr, "calls: '%s' is not a number\n", text);
        exit(2);
    }
    return n;
}

static void round_of_calls(void) {
    grow_forest();
    uint64_t lent = forest_digest();
    for (int i = 0; i < 6; i++)
        history();
    for (int i = 0; i < 100; i++)
        any_table();
    for (int i = 0; i < 200; i++) {
        lone_record();
        rebuilt();
    }
    for (int i = 0; i < 20; i++)
        left_out();
    for (int i = 0; i < 60; i++)
        faults();
    for (int i = 0; i < 60; i++) {
        made_up();
        any_record();
    }
    for (int i = 0; i < 4; i++) {
        reached_arrays();
        any_arrays();
        made_up_arrays();
    }
    events();
    changed_nodes();
    memory_lists();
    must(forest_digest() == lent, "no call changes a tree that it is lent");
}

int main(int argc, char **argv) {
    if (argc != 3 || number(argv[2]) == 0) {
        fputs("usage: calls SEED CALLS\n", stderr);
        return 2;
    }
    seed(number(argv[1]));
    make_calls(number(argv[2]));
    printf("seed %" PRIu64 ", %" PRIu64 " calls\n", number(argv[1]), number(argv[2]));
    for (;;)
        round_of_calls();
}
