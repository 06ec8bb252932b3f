// What the C tests of the interface share: a check that is counted, and what they end with.
#include <stdio.h>

static unsigned checks, failures;

#define CHECK(holds) check((holds) != 0, #holds, __FILE__, __LINE__)

static void check(int holds, const char *what, const char *file, int line) {
    checks++;
    if (holds) return;
    failures++;
    fprintf(stderr, "%s:%d: fails: %s\n", file, line, what);
}

// The status of a test's end.
static int checked(const char *test) {
    if (failures == 0) printf("%s: %u checks, all hold\n", test, checks);
    else fprintf(stderr, "%s: %u of %u checks fail\n", test, failures, checks);
    return failures != 0;
}
