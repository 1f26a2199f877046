/* Numbers and times of wide texts, and characters of 16 and 32 bits. */
#define _GNU_SOURCE
#include "wide.h"

#include <errno.h>
#include <stdlib.h>
#include <time.h>
#include <uchar.h>

long double wcstold(const wchar_t *restrict text, wchar_t **restrict end)
{
    char *bytes = first_bytes(text), *behind = bytes;
    long double found = bytes == NULL ? 0 : strtold(bytes, &behind);
    if (end != NULL)
        *end = (wchar_t *)text + (behind - bytes);
    free(bytes);
    return found;
}

size_t wcsftime(wchar_t *restrict to, size_t size, const wchar_t *restrict format, const struct tm *restrict time)
{
    char *how = bytes_of(format), *made = size == 0 ? NULL : malloc(size);
    size_t length = how == NULL || made == NULL ? 0 : strftime(made, size, how, time);
    if (length > 0 && mbstowcs(to, made, length + 1) != length)
        length = 0;
    free(how);
    free(made);
    return length;
}

/* A character of 16 or 32 bits is a wide one: there is none that takes two. */

size_t mbrtoc32(char32_t *restrict to, const char *restrict from, size_t most, mbstate_t *restrict state)
{
    static mbstate_t own;
    wchar_t letter;
    size_t count = mbrtowc(&letter, from, most, state == NULL ? &own : state);
    if (to != NULL && from != NULL && count < (size_t)-2)
        *to = (char32_t)letter;
    return count;
}

size_t c32rtomb(char *restrict to, char32_t letter, mbstate_t *restrict state)
{
    static mbstate_t own;
    return wcrtomb(to, (wchar_t)letter, state == NULL ? &own : state);
}

size_t mbrtoc16(char16_t *restrict to, const char *restrict from, size_t most, mbstate_t *restrict state)
{
    static mbstate_t own;
    char32_t letter;
    size_t count = mbrtoc32(&letter, from, most, state == NULL ? &own : state);
    if (to != NULL && from != NULL && count < (size_t)-2)
        *to = (char16_t)letter;
    return count;
}

size_t c16rtomb(char *restrict to, char16_t letter, mbstate_t *restrict state)
{
    static mbstate_t own;
    return c32rtomb(to, letter, state == NULL ? &own : state);
}
