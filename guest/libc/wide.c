/* Wide characters: conversions of whole texts, which tell a length where there is no room, and streams. */
#define _GNU_SOURCE
#include "stream.h"
#include "wide.h"

#include <errno.h>
#include <limits.h>
#include <stdio.h>
#include <stdlib.h>
#include <string.h>
#include <wchar.h>

size_t mbstowcs(wchar_t *restrict to, const char *restrict from, size_t most)
{
    mbstate_t state = {0};
    const char *at = from;
    return mbsrtowcs(to, &at, most, &state);
}

size_t wcstombs(char *restrict to, const wchar_t *restrict from, size_t most)
{
    mbstate_t state = {0};
    const wchar_t *at = from;
    return wcsrtombs(to, &at, most, &state);
}

wint_t fgetwc(FILE *file)
{
    HOLD(&file->lock);
    mbstate_t state = {0};
    wchar_t found;
    for (;;) {
        int byte = fgetc(file);
        if (byte == EOF)
            return WEOF;
        char one = (char)byte;
        size_t count = mbrtowc(&found, &one, 1, &state);
        if (count == (size_t)-1)
            return WEOF;
        if (count != (size_t)-2)
            return (wint_t)found;
    }
}

wint_t fputwc(wchar_t letter, FILE *file)
{
    char bytes[MB_LEN_MAX + 16];
    mbstate_t state = {0};
    size_t count = wcrtomb(bytes, letter, &state);
    return count != (size_t)-1 && fwrite(bytes, 1, count, file) == count ? (wint_t)letter : WEOF;
}

int fputws(const wchar_t *restrict text, FILE *restrict file)
{
    HOLD(&file->lock);
    for (; *text != L'\0'; ++text) {
        if (fputwc(*text, file) == WEOF)
            return EOF;
    }
    return 0;
}

wchar_t *fgetws(wchar_t *restrict text, int size, FILE *restrict file)
{
    HOLD(&file->lock);
    int length = 0;
    while (length + 1 < size) {
        wint_t letter = fgetwc(file);
        if (letter == WEOF)
            break;
        text[length++] = (wchar_t)letter;
        if (letter == L'\n')
            break;
    }
    if (length == 0)
        return NULL;
    text[length] = L'\0';
    return text;
}

wint_t ungetwc(wint_t letter, FILE *file)
{
    HOLD(&file->lock);
    char bytes[MB_LEN_MAX + 16];
    mbstate_t state = {0};
    size_t count = letter == WEOF ? (size_t)-1 : wcrtomb(bytes, (wchar_t)letter, &state);
    if (count == (size_t)-1)
        return WEOF;
    while (count > 0)
        ungetc((unsigned char)bytes[--count], file);
    return letter;
}

#undef getwc
#undef getwchar
#undef putwc
#undef putwchar

wint_t getwc(FILE *file)
{
    return fgetwc(file);
}

wint_t getwchar(void)
{
    return fgetwc(stdin);
}

wint_t putwc(wchar_t letter, FILE *file)
{
    return fputwc(letter, file);
}

wint_t putwchar(wchar_t letter)
{
    return fputwc(letter, stdout);
}

int fwide(FILE *file, int mode)
{
    (void)file;
    return mode;
}

char *bytes_of(const wchar_t *text)
{
    size_t length = wcstombs(NULL, text, 0);
    char *bytes = length == (size_t)-1 ? NULL : malloc(length + 1);
    if (bytes != NULL)
        wcstombs(bytes, text, length + 1);
    return bytes;
}

char *first_bytes(const wchar_t *text)
{
    char *bytes = malloc(wcslen(text) + 1);
    size_t length = 0;
    if (bytes == NULL)
        return NULL;
    for (int byte; (byte = wctob((wint_t)text[length])) > 0; ++length)
        bytes[length] = (char)byte;
    bytes[length] = '\0';
    return bytes;
}

int vfwprintf(FILE *restrict file, const wchar_t *restrict format, va_list arguments)
{
    char *bytes = bytes_of(format);
    int count = bytes == NULL ? -1 : vfprintf(file, bytes, arguments);
    free(bytes);
    return count;
}

int vwprintf(const wchar_t *restrict format, va_list arguments)
{
    return vfwprintf(stdout, format, arguments);
}

int vswprintf(wchar_t *restrict text, size_t size, const wchar_t *restrict format, va_list arguments)
{
    char *bytes = bytes_of(format), *made = NULL;
    int count = bytes == NULL ? -1 : vasprintf(&made, bytes, arguments);
    size_t length = count < 0 || size == 0 ? 0 : mbstowcs(text, made, size);
    free(bytes);
    free(made);
    if (count >= 0 && length < size)
        return (int)length;
    if (size > 0)
        text[size - 1] = L'\0';
    errno = EOVERFLOW;
    return -1;
}

/* Calls a function with a list in place of `...`. */
#define WITH_LIST(call)                                                                                                            \
    va_list arguments;                                                                                                             \
    va_start(arguments, format);                                                                                                   \
    int result = call;                                                                                                             \
    va_end(arguments);                                                                                                             \
    return result

int wprintf(const wchar_t *restrict format, ...)
{
    WITH_LIST(vwprintf(format, arguments));
}

int fwprintf(FILE *restrict file, const wchar_t *restrict format, ...)
{
    WITH_LIST(vfwprintf(file, format, arguments));
}

int swprintf(wchar_t *restrict text, size_t size, const wchar_t *restrict format, ...)
{
    WITH_LIST(vswprintf(text, size, format, arguments));
}
