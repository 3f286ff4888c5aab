#include "command.h"

#include <string.h>

int complain(const char *what, const char *why, int error)
{
    if (error != 0)
        fprintf(stderr, "skriemelt: %s: %s: %s\n", what, why, strerror(error));
    else
        fprintf(stderr, "skriemelt: %s: %s\n", what, why);
    return STATUS_FAILED;
}
