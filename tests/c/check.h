/* Checks that are counted: what is wrong is printed with its line, and the test's last line has both counts. */
#ifndef CHECK_H
#define CHECK_H

#include <stdio.h>

static unsigned passed, failed;

static void check_at(int line, const char *what, unsigned long long got, unsigned long long wanted)
{
    if (got == wanted) {
        passed++;
        return;
    }
    failed++;
    printf("line %d: %s: %llu (%llx), not %llu (%llx)\n", line, what, got, got, wanted, wanted);
}
#define CHECK(got, wanted) check_at(__LINE__, #got, (unsigned long long)(got), (unsigned long long)(wanted))

/* The exit status of a test. */
static int checked(const char *test)
{
    printf("%s: %u checks passed, %u failed\n", test, passed, failed);
    return failed > 0;
}

#endif
