/* Names and files for a while. The names are counted: there are no random numbers, and nobody else makes any. */
#define _GNU_SOURCE
#include "stream.h"

#include <errno.h>
#include <fcntl.h>
#include <stdlib.h>
#include <string.h>
#include <sys/stat.h>
#include <unistd.h>

#define TRIES 100000

/* Puts the next name into the six letters before the suffix; NULL with errno EINVAL where they aren't X. */
static char *letters_of(char *name, int suffix)
{
    size_t length = strlen(name);
    if (suffix < 0 || length < 6 + (size_t)suffix || memcmp(name + length - (size_t)suffix - 6, "XXXXXX", 6) != 0) {
        errno = EINVAL;
        return NULL;
    }
    return name + length - (size_t)suffix - 6;
}

static void next_name(char *letters)
{
    static const char signs[] = "0123456789abcdefghijklmnopqrstuvwxyz";
    static unsigned long count;
    unsigned long rest = count++;
    for (int at = 5; at >= 0; --at, rest /= sizeof signs - 1)
        letters[at] = signs[rest % (sizeof signs - 1)];
}

int mkostemps(char *name, int suffix, int flags)
{
    char *letters = letters_of(name, suffix);
    for (int at = 0; letters != NULL && at < TRIES; ++at) {
        next_name(letters);
        int fd = open(name, (flags & ~O_ACCMODE) | O_RDWR | O_CREAT | O_EXCL, 0600);
        if (fd >= 0 || errno != EEXIST)
            return fd;
    }
    return -1;
}

int mkostemp(char *name, int flags)
{
    return mkostemps(name, 0, flags);
}

int mkstemps(char *name, int suffix)
{
    return mkostemps(name, suffix, 0);
}

int mkstemp(char *name)
{
    return mkostemps(name, 0, 0);
}

char *mkdtemp(char *name)
{
    char *letters = letters_of(name, 0);
    for (int at = 0; letters != NULL && at < TRIES; ++at) {
        next_name(letters);
        if (mkdir(name, 0700) == 0)
            return name;
        if (errno != EEXIST)
            return NULL;
    }
    return NULL;
}

/* Makes the name one that isn't there; an empty one where there is none. */
static char *fresh_name(char *name)
{
    struct stat status;
    char *letters = letters_of(name, 0);
    for (int at = 0; letters != NULL && at < TRIES; ++at) {
        next_name(letters);
        if (lstat(name, &status) != 0 && errno != ELOOP)
            return name;
    }
    *name = '\0';
    return name;
}

char *mktemp(char *name)
{
    return fresh_name(name);
}

char *tmpnam(char *name)
{
    static char own[L_tmpnam];
    if (name == NULL)
        name = own;
    return *fresh_name(strcpy(name, P_tmpdir "/fileXXXXXX")) == '\0' ? NULL : name;
}

char *tempnam(const char *directory, const char *prefix)
{
    char *name;
    if (asprintf(&name, "%s/%.5sXXXXXX", directory == NULL ? P_tmpdir : directory, prefix == NULL ? "file" : prefix) < 0)
        return NULL;
    if (*fresh_name(name) != '\0')
        return name;
    free(name);
    return NULL;
}

/* In a directory /tmp where there is one, and else in memory. */
FILE *tmpfile(void)
{
    char name[] = P_tmpdir "/fileXXXXXX";
    int error = errno;
    int fd = mkstemp(name);
    if (fd >= 0) {
        unlink(name);
        return fdopen(fd, "w+");
    }
    errno = error;
    return stream_in_memory();
}
