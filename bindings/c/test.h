/* What the tests in C share: a comparison that counts where it fails. */
#include "narephon.h"

#include <stdio.h>
#include <string.h>

static int failures;

static void same(const char *what, uint32_t got, uint32_t wanted) {
    if (got != wanted) {
        printf("%s: %u, not %u\n", what, (unsigned)got, (unsigned)wanted);
        failures++;
    }
}

/* Says how many failed; the status of the test. */
static int ended(const char *test) {
    printf("%s: %d failures\n", test, failures);
    return failures != 0;
}
