/* A file that is written whole or not at all. */
#define _XOPEN_SOURCE 700
#include "command.h"

#include <errno.h>
#include <fcntl.h>
#include <stdlib.h>
#include <string.h>
#include <sys/stat.h>
#include <unistd.h>

static const char ending_of_a_temporary[] = ".XXXXXX";

/* Whether all was written; else errno says why not. */
static int write_all(int file, const uint8_t *bytes, size_t count)
{
    while (count > 0) {
        ssize_t n = write(file, bytes, count);

        if (n >= 0) {
            bytes += n;
            count -= (size_t)n;
        } else if (errno != EINTR) {
            return 0;
        }
    }
    return 1;
}

/* Closes it, whatever happened before; whether all went well, else errno says what first did not. */
static int closed(int file, int well)
{
    int error = errno;

    if (close(file) != 0 && well)
        return 0;
    errno = error;
    return well;
}

/* The permissions that a new file gets. */
static mode_t new_mode(void)
{
    mode_t mask = umask(0);

    umask(mask);
    return (mode_t)(0666 & ~mask);
}

/* Fills a temporary file of this name pattern beside the target, and lays it in the target's place; what was there before stays until then. Whether all went well. */
static int replace(char *temporary, const char *target, mode_t mode, const uint8_t *bytes, size_t count)
{
    int file = mkstemp(temporary), error;

    if (file < 0)
        return 0;
    if (closed(file, write_all(file, bytes, count) && fchmod(file, mode) == 0 && fsync(file) == 0) && rename(temporary, target) == 0)
        return 1;
    error = errno;
    unlink(temporary);
    errno = error;
    return 0;
}

/* The same for a regular file that is there or not; a link is followed to the file that it names. */
static int replace_named(const char *name, mode_t mode, const uint8_t *bytes, size_t count)
{
    char *followed = realpath(name, NULL);
    const char *target = followed != NULL ? followed : name;
    char *temporary = malloc(strlen(target) + sizeof ending_of_a_temporary);
    int well = 0, error;

    if (temporary != NULL) {
        strcpy(temporary, target);
        strcat(temporary, ending_of_a_temporary);
        well = replace(temporary, target, mode, bytes, count);
    }
    error = errno;
    free(temporary);
    free(followed);
    errno = error;
    return well;
}

/* A device or a pipe cannot be replaced: it is written as it is, and a folder is an error. */
static int write_into(const char *name, const uint8_t *bytes, size_t count)
{
    int file = open(name, O_WRONLY);

    return file >= 0 && closed(file, write_all(file, bytes, count));
}

int output_file(const char *name, const uint8_t *bytes, size_t count)
{
    struct stat there;
    int well;

    if (stat(name, &there) != 0)
        well = replace_named(name, new_mode(), bytes, count);
    else if (S_ISREG(there.st_mode))
        well = replace_named(name, there.st_mode & 07777, bytes, count);
    else
        well = write_into(name, bytes, count);
    if (!well)
        complain(name, "cannot be written", errno);
    return well;
}
