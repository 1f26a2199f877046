/* scanf of wide texts: formats and texts are scanned as their bytes, of which a character has one. A
   text ends where a letter has none. */
#include "wide.h"

#include <stdarg.h>
#include <stdio.h>
#include <stdlib.h>

int vfwscanf(FILE *restrict file, const wchar_t *restrict format, va_list arguments)
{
    char *bytes = bytes_of(format);
    int count = bytes == NULL ? EOF : vfscanf(file, bytes, arguments);
    free(bytes);
    return count;
}

int vswscanf(const wchar_t *restrict text, const wchar_t *restrict format, va_list arguments)
{
    char *how = bytes_of(format), *bytes = first_bytes(text);
    int count = how == NULL || bytes == NULL ? EOF : vsscanf(bytes, how, arguments);
    free(how);
    free(bytes);
    return count;
}

int vwscanf(const wchar_t *restrict format, va_list arguments)
{
    return vfwscanf(stdin, format, arguments);
}

#define WITH_LIST(call)                                                                                                            \
    va_list arguments;                                                                                                             \
    va_start(arguments, format);                                                                                                   \
    int result = call;                                                                                                             \
    va_end(arguments);                                                                                                             \
    return result

int wscanf(const wchar_t *restrict format, ...)
{
    WITH_LIST(vwscanf(format, arguments));
}

int fwscanf(FILE *restrict file, const wchar_t *restrict format, ...)
{
    WITH_LIST(vfwscanf(file, format, arguments));
}

int swscanf(const wchar_t *restrict text, const wchar_t *restrict format, ...)
{
    WITH_LIST(vswscanf(text, format, arguments));
}
