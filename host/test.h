/* A count of checks, and no more. */
#ifndef TEST_H
#define TEST_H

#include "skriemelt.h"

#include <stdio.h>
#include <stdlib.h>
#include <string.h>

static unsigned long test_passed, test_failed;

static void check(int holds, const char *what)
{
    if (holds) {
        test_passed++;
        return;
    }
    test_failed++;
    printf("FAILED: %s\n", what);
}

/* Prints the counts; the exit status. */
static int finish(const char *name)
{
    printf("%s: %lu passed, %lu failed\n", name, test_passed, test_failed);
    return test_failed != 0;
}

#endif
