/* What the C programs of the tests share: each check is counted, and a failed one is told. */
#include <stdio.h>

static int passed, failed;

static void check(const char *name, int holds) {
    if (holds) {
        passed++;
    } else {
        failed++;
        printf("failed: %s\n", name);
    }
}

/* Tells the counts, and gives the status of the program. */
static int told(void) {
    printf("%d passed, %d failed\n", passed, failed);
    return failed != 0;
}
