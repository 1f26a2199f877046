/* err.h and error.h: messages with the program's name before them. */
#define _GNU_SOURCE
#include <err.h>
#include <errno.h>
#include <error.h>
#include <stdio.h>
#include <stdlib.h>
#include <string.h>

extern char *program_invocation_name, *program_invocation_short_name;

unsigned error_message_count;

void vwarnx(const char *format, va_list arguments)
{
    fprintf(stderr, "%s: ", program_invocation_short_name);
    if (format != NULL)
        vfprintf(stderr, format, arguments);
    fputc('\n', stderr);
}

void vwarn(const char *format, va_list arguments)
{
    int error = errno;
    fprintf(stderr, "%s: ", program_invocation_short_name);
    if (format != NULL) {
        vfprintf(stderr, format, arguments);
        fputs(": ", stderr);
    }
    fprintf(stderr, "%s\n", strerror(error));
}

void verr(int code, const char *format, va_list arguments)
{
    vwarn(format, arguments);
    exit(code);
}

void verrx(int code, const char *format, va_list arguments)
{
    vwarnx(format, arguments);
    exit(code);
}

/* Calls a function with a list in place of `...`. */
#define WITH_LIST(call)                                                                                                            \
    va_list arguments;                                                                                                             \
    va_start(arguments, format);                                                                                                   \
    call;                                                                                                                          \
    va_end(arguments)

void warn(const char *format, ...)
{
    WITH_LIST(vwarn(format, arguments));
}

void warnx(const char *format, ...)
{
    WITH_LIST(vwarnx(format, arguments));
}

void err(int code, const char *format, ...)
{
    WITH_LIST(verr(code, format, arguments));
}

void errx(int code, const char *format, ...)
{
    WITH_LIST(verrx(code, format, arguments));
}

void error(int code, int number, const char *format, ...)
{
    fflush(stdout);
    fprintf(stderr, "%s: ", program_invocation_name);
    WITH_LIST(vfprintf(stderr, format, arguments));
    if (number != 0)
        fprintf(stderr, ": %s", strerror(number));
    fputc('\n', stderr);
    ++error_message_count;
    if (code != 0)
        exit(code);
}
