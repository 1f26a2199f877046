/*
 * Checks of the C library. A program of checks is run in the sandbox and natively (cases/guests/native), and has to print the same: what
 * isn't as C and POSIX say, and how many checks there were. Its first word is a directory in which it may make files.
 */
#ifndef CHECK_H
#define CHECK_H

#ifndef _GNU_SOURCE
#define _GNU_SOURCE
#endif
#include <errno.h>
#include <stdio.h>
#include <string.h>

static int checks, failures;

static void check_line(int line, const char *what, int is_so)
{
    ++checks;
    if (is_so)
        return;
    ++failures;
    printf("line %d isn't so: %s\n", line, what);
}

/* What has to be so. */
#define CHECK(what) check_line(__LINE__, #what, (what) != 0)

/* What has to fail with this error. */
#define FAILS(call, error) (errno = 0, check_line(__LINE__, #call " is " #error, (call) == -1 && errno == (error)))

/* What has to print this. */
#define PRINTS(text, ...) (snprintf(printed, sizeof printed, __VA_ARGS__), check_text(__LINE__, printed, text))

__attribute__((unused)) static char printed[2048];

__attribute__((unused)) static void check_text(int line, const char *came, const char *wanted)
{
    ++checks;
    if (strcmp(came, wanted) == 0)
        return;
    ++failures;
    printf("line %d: came `%s`, wanted `%s`\n", line, came, wanted);
}

static int finish(void)
{
    printf("%d checks, %d failed\n", checks, failures);
    return failures != 0;
}

#endif
