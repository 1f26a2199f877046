/* scanf and its kin. What is scanned comes from a stream; a text is a stream over its memory. */
#define _GNU_SOURCE
#include "stream.h"

#include <ctype.h>
#include <inttypes.h>
#include <stdarg.h>
#include <stdlib.h>
#include <string.h>
#include <wchar.h>

#define MOST_OF_NUMBER 512 /* letters of a number that are kept */

/* What is being scanned, and how far. */
struct scan {
    FILE *file;
    long count;    /* bytes that were taken */
    int width;     /* how many more the conversion may take */
    bool is_ended; /* by the end of the input */
    va_list list;
};

/* A conversion: what stands behind the `%`. */
struct directive {
    bool is_skipped, is_allocated;
    int width;
    char size; /* 'H' for hh, 'h', 'l', 'L', or 0 */
    char letter;
    const char *set, *set_end;
    bool is_other_set;
};

static int next_byte(struct scan *scan)
{
    int byte = scan->width > 0 ? fgetc(scan->file) : EOF;
    if (byte == EOF) {
        scan->is_ended = scan->width > 0;
        return EOF;
    }
    --scan->width;
    ++scan->count;
    return byte;
}

static void give_back(struct scan *scan, int byte)
{
    if (byte == EOF)
        return;
    ungetc(byte, scan->file);
    ++scan->width;
    --scan->count;
}

static void skip_spaces(struct scan *scan)
{
    int byte;
    scan->width = INT32_MAX;
    while ((byte = next_byte(scan)) != EOF && isspace(byte))
        ;
    give_back(scan, byte);
}

/* Reading a directive. */

static const char *read_set(const char *format, struct directive *how)
{
    how->is_other_set = *format == '^';
    format += how->is_other_set;
    how->set = format;
    format += *format == ']';
    while (*format != '\0' && *format != ']')
        ++format;
    how->set_end = format;
    return format + (*format != '\0');
}

static const char *read_directive(const char *format, struct directive *how)
{
    *how = (struct directive){0};
    how->is_skipped = *format == '*';
    format += how->is_skipped;
    while (isdigit((unsigned char)*format))
        how->width = how->width * 10 + (*format++ - '0');
    how->is_allocated = *format == 'm';
    format += how->is_allocated;
    while (*format != '\0' && strchr("hlLqjzt", *format) != NULL) {
        char size = *format++;
        how->size = size == 'h' && how->size == 'h' ? 'H' : size == 'h' ? 'h' : size == 'L' || (size == 'l' && how->size == 'l') ? 'L' : 'l';
    }
    how->letter = *format;
    format += *format != '\0';
    return how->letter == '[' ? read_set(format, how) : format;
}

/* Integers. */

static void store_integer(struct scan *scan, const struct directive *how, uintmax_t number)
{
    if (how->is_skipped)
        return;
    void *to = va_arg(scan->list, void *);
    switch (how->letter == 'p' ? 'l' : how->size) {
    case 'H': *(unsigned char *)to = (unsigned char)number; break;
    case 'h': *(unsigned short *)to = (unsigned short)number; break;
    case '\0': *(unsigned *)to = (unsigned)number; break;
    default: *(unsigned long *)to = number;
    }
}

static bool is_digit_of(int byte, int base)
{
    int value = isdigit(byte) ? byte - '0' : isalpha(byte) ? tolower(byte) - 'a' + 10 : 99;
    return value < base;
}

/* The letters of an integer, as far as they are one. The result is its base, or 0 where there is none. */
static int take_integer(struct scan *scan, int base, char *text)
{
    int length = 0, byte = next_byte(scan);
    if (byte == '+' || byte == '-') {
        text[length++] = (char)byte;
        byte = next_byte(scan);
    }
    int digits = 0;
    if (byte == '0' && (base == 0 || base == 16)) {
        text[length++] = '0';
        digits = 1;
        byte = next_byte(scan);
        if (byte != EOF && (byte | 32) == 'x') {
            base = 16;
            byte = next_byte(scan);
            digits = 0;
        } else if (base == 0) {
            base = 8;
        }
    }
    if (base == 0)
        base = 10;
    for (; byte != EOF && is_digit_of(byte, base); byte = next_byte(scan), ++digits) {
        if (length < MOST_OF_NUMBER - 1)
            text[length++] = (char)byte;
    }
    give_back(scan, byte);
    text[length] = '\0';
    return digits > 0 ? base : 0;
}

static bool scan_integer(struct scan *scan, const struct directive *how)
{
    char text[MOST_OF_NUMBER];
    char letter = how->letter;
    int base = letter == 'i' ? 0 : letter == 'o' ? 8 : letter == 'x' || letter == 'X' || letter == 'p' ? 16 : 10;
    base = take_integer(scan, base, text);
    if (base == 0)
        return false;
    bool is_signed = letter == 'd' || letter == 'i';
    store_integer(scan, how, is_signed ? (uintmax_t)strtoimax(text, NULL, base) : strtoumax(text, NULL, base));
    return true;
}

/* Floating-point numbers. */

/* Takes bytes that stand in a word, letter by letter, without regard to case. */
static int take_word(struct scan *scan, int byte, const char *word, char *text, int *length)
{
    while (*word != '\0' && byte != EOF && (byte | 32) == *word) {
        text[(*length)++] = (char)byte;
        byte = next_byte(scan);
        ++word;
    }
    return byte;
}

static int take_digits(struct scan *scan, int byte, int base, char *text, int *length, int *digits)
{
    for (; byte != EOF && is_digit_of(byte, base); byte = next_byte(scan), ++*digits) {
        if (*length < MOST_OF_NUMBER - 16)
            text[(*length)++] = (char)byte;
    }
    return byte;
}

/* The letters of a number, up to one that can't go on with it. */
static void take_real(struct scan *scan, char *text)
{
    int length = 0, digits = 0, base = 10, byte = next_byte(scan);
    if (byte == '+' || byte == '-') {
        text[length++] = (char)byte;
        byte = next_byte(scan);
    }
    if (byte != EOF && ((byte | 32) == 'i' || (byte | 32) == 'n')) {
        byte = take_word(scan, byte, (byte | 32) == 'i' ? "infinity" : "nan", text, &length);
        goto end;
    }
    if (byte == '0') {
        text[length++] = '0';
        digits = 1;
        byte = next_byte(scan);
        if (byte != EOF && (byte | 32) == 'x') {
            text[length++] = 'x';
            base = 16;
            byte = next_byte(scan);
        }
    }
    byte = take_digits(scan, byte, base, text, &length, &digits);
    if (byte == '.') {
        text[length++] = '.';
        byte = take_digits(scan, next_byte(scan), base, text, &length, &digits);
    }
    if (digits > 0 && byte != EOF && (byte | 32) == (base == 16 ? 'p' : 'e')) {
        text[length++] = (char)byte;
        byte = next_byte(scan);
        if (byte == '+' || byte == '-') {
            text[length++] = (char)byte;
            byte = next_byte(scan);
        }
        byte = take_digits(scan, byte, 10, text, &length, &digits);
    }
end:
    give_back(scan, byte);
    text[length] = '\0';
}

static bool scan_real(struct scan *scan, const struct directive *how)
{
    char text[MOST_OF_NUMBER], *end;
    take_real(scan, text);
    long double found = how->size == 'L' ? strtold(text, &end) : how->size == 'l' ? strtod(text, &end) : strtof(text, &end);
    if (end == text)
        return false;
    if (how->is_skipped)
        return true;
    void *to = va_arg(scan->list, void *);
    if (how->size == 'L')
        *(long double *)to = found;
    else if (how->size == 'l')
        *(double *)to = (double)found;
    else
        *(float *)to = (float)found;
    return true;
}

/* Texts. */

static bool is_in_set(const struct directive *how, int byte)
{
    for (const char *at = how->set; at < how->set_end; ++at) {
        int first = (unsigned char)*at, last = first;
        if (at + 2 < how->set_end && at[1] == '-') {
            last = (unsigned char)at[2];
            at += 2;
        }
        if (byte >= first && byte <= last)
            return !how->is_other_set;
    }
    return how->is_other_set;
}

static bool takes(const struct directive *how, int byte)
{
    return how->letter == 'c' || (how->letter == 's' ? !isspace(byte) : is_in_set(how, byte));
}

/* Where a text goes: the program's memory, memory that is allocated for it, or nowhere. */
struct goal {
    char *text;
    size_t length, room; /* room is 0 where the memory is the program's */
    bool is_wide;
};

static bool add_byte(struct goal *goal, int byte)
{
    size_t width = goal->is_wide ? sizeof(wchar_t) : 1;
    if (goal->room != 0 && (goal->length + 1) * width > goal->room) {
        char *larger = realloc(goal->text, goal->room * 2);
        if (larger == NULL)
            return false;
        goal->text = larger;
        goal->room *= 2;
    }
    if (goal->text != NULL && goal->is_wide)
        ((wchar_t *)goal->text)[goal->length] = (unsigned char)byte;
    else if (goal->text != NULL)
        goal->text[goal->length] = (char)byte;
    ++goal->length;
    return true;
}

static bool scan_text(struct scan *scan, const struct directive *how)
{
    struct goal goal = {.is_wide = how->size == 'l' || how->size == 'L'};
    void *to = how->is_skipped ? NULL : va_arg(scan->list, void *);
    if (to != NULL && how->is_allocated) {
        goal.room = 64;
        goal.text = malloc(goal.room);
    } else {
        goal.text = to;
    }
    int byte;
    while ((byte = next_byte(scan)) != EOF && takes(how, byte)) {
        if (!add_byte(&goal, byte))
            return false;
    }
    give_back(scan, byte);
    bool is_there = goal.length > 0 && (how->letter == 'c' || add_byte(&goal, '\0'));
    if (to != NULL && how->is_allocated && is_there)
        *(char **)to = goal.text;
    else if (to != NULL && how->is_allocated)
        free(goal.text);
    return is_there;
}

/* The whole format. */

static void store_count(struct scan *scan, const struct directive *how)
{
    store_integer(scan, how, (uintmax_t)scan->count);
}

/* The value of a conversion, of which there is at least one byte. */
static bool scan_item(struct scan *scan, const struct directive *how)
{
    switch (how->letter) {
    case 'd': case 'i': case 'u': case 'o': case 'x': case 'X': case 'p': return scan_integer(scan, how);
    case 'a': case 'A': case 'e': case 'E': case 'f': case 'F': case 'g': case 'G': return scan_real(scan, how);
    case 'c': case 's': case '[': return scan_text(scan, how);
    default: return how->letter == '%' && next_byte(scan) == '%';
    }
}

static bool scan_value(struct scan *scan, const struct directive *how)
{
    if (strchr("cC[n", how->letter) == NULL)
        skip_spaces(scan);
    scan->width = how->width > 0 ? how->width : how->letter == 'c' ? 1 : INT32_MAX;
    scan->is_ended = false;
    int first = next_byte(scan);
    if (first == EOF)
        return false;
    give_back(scan, first);
    bool is_there = scan_item(scan, how);
    scan->is_ended = false;
    return is_there;
}

/* A byte of the format that stands for itself. */
static bool scan_literal(struct scan *scan, char letter)
{
    scan->width = INT32_MAX;
    int byte = next_byte(scan);
    if (byte == (unsigned char)letter)
        return true;
    give_back(scan, byte);
    return false;
}

static int scan_all(struct scan *scan, const char *format)
{
    struct directive how;
    int done = 0;
    while (*format != '\0') {
        if (isspace((unsigned char)*format)) {
            skip_spaces(scan);
            ++format;
            continue;
        }
        if (*format != '%') {
            if (!scan_literal(scan, *format))
                return done == 0 && scan->is_ended ? EOF : done;
            ++format;
            continue;
        }
        format = read_directive(format + 1, &how);
        if (how.letter == 'n') {
            store_count(scan, &how);
            continue;
        }
        if (!scan_value(scan, &how))
            return done == 0 && scan->is_ended ? EOF : done;
        done += !how.is_skipped && how.letter != '%';
    }
    return done;
}

int vfscanf(FILE *restrict file, const char *restrict format, va_list arguments)
{
    HOLD(&file->lock);
    struct scan scan = {.file = file};
    if (!begin_reading(file))
        return EOF;
    va_copy(scan.list, arguments);
    int done = scan_all(&scan, format);
    va_end(scan.list);
    return done;
}

/* A text is a stream whose buffer it is. What ungetc would change is the byte that stands there, so none is changed. */
int vsscanf(const char *restrict text, const char *restrict format, va_list arguments)
{
    static const struct stream_source no_source = {NULL, NULL, NULL, NULL};
    size_t length = strlen(text);
    struct __file file = {.source = &no_source, .buffer = (unsigned char *)(uintptr_t)text, .capacity = length, .end = length, .fd = -1,
                          .can_read = true, .is_reading = true};
    return vfscanf(&file, format, arguments);
}

int vscanf(const char *restrict format, va_list arguments)
{
    return vfscanf(stdin, format, arguments);
}

#define WITH_LIST(last, call)                                                                                                      \
    va_list arguments;                                                                                                             \
    va_start(arguments, last);                                                                                                     \
    int result = call;                                                                                                             \
    va_end(arguments);                                                                                                             \
    return result

int scanf(const char *restrict format, ...)
{
    WITH_LIST(format, vfscanf(stdin, format, arguments));
}

int fscanf(FILE *restrict file, const char *restrict format, ...)
{
    WITH_LIST(format, vfscanf(file, format, arguments));
}

int sscanf(const char *restrict text, const char *restrict format, ...)
{
    WITH_LIST(format, vsscanf(text, format, arguments));
}
