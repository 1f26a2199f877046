/* printf: formats, texts and integers. */
#define _GNU_SOURCE
#include "format.h"

#include <errno.h>
#include <limits.h>
#include <stdarg.h>
#include <stddef.h>
#include <string.h>
#include <wchar.h>

#define MOST_ARGUMENTS 32 /* of a format with numbers, as in %2$s */

/* An argument, as it was taken. */
union argument {
    intmax_t number;
    uintmax_t unsigned_number;
    double real;
    long double long_real;
    void *pointer;
};

/* Where the arguments come from: one after another, or by their numbers. */
struct arguments {
    va_list list;
    union argument *numbered; /* NULL where the format has no numbers */
};

void put_some(struct sink *sink, const char *bytes, int count)
{
    if (count <= 0)
        return;
    sink->put(sink, bytes, (size_t)count);
    sink->count += (uint64_t)count;
}

void put_many(struct sink *sink, char byte, int count)
{
    char some[32];
    if (count <= 0)
        return;
    memset(some, byte, sizeof some);
    for (; count > 0; count -= (int)sizeof some)
        put_some(sink, some, count < (int)sizeof some ? count : (int)sizeof some);
}

void begin_value(struct sink *sink, const struct conversion *how, const char *sign, int length)
{
    int padding = how->width - (int)strlen(sign) - length;
    if (!how->is_left && !how->has_zeros)
        put_many(sink, ' ', padding);
    put_some(sink, sign, (int)strlen(sign));
    if (!how->is_left && how->has_zeros)
        put_many(sink, '0', padding);
}

void end_value(struct sink *sink, const struct conversion *how, const char *sign, int length)
{
    if (how->is_left)
        put_many(sink, ' ', how->width - (int)strlen(sign) - length);
}

/* Reading a format. */

static int number_of(const char **format)
{
    int number = 0;
    while (**format >= '0' && **format <= '9') {
        int digit = *(*format)++ - '0';
        if (__builtin_mul_overflow(number, 10, &number) || __builtin_add_overflow(number, digit, &number))
            return -1;
    }
    return number;
}

static void read_flags(const char **format, struct conversion *how)
{
    for (;; ++*format) {
        switch (**format) {
        case '-': how->is_left = true; break;
        case '+': how->has_sign = true; break;
        case ' ': how->has_space = true; break;
        case '#': how->is_other = true; break;
        case '0': how->has_zeros = true; break;
        case '\'': break;
        default: return;
        }
    }
}

/* Takes the argument of a conversion of this letter and size. */
static union argument take(struct arguments *from, char letter, const char *size)
{
    union argument found = {0};
    if (strchr("diouxXc", letter) != NULL) {
        bool is_signed = letter == 'd' || letter == 'i';
        if (*size == 'l' || *size == 'j' || *size == 'z' || *size == 't')
            found.number = va_arg(from->list, long);
        else
            found.number = va_arg(from->list, int);
        if (*size == 'h')
            found.number = size[1] == 'h' ? (is_signed ? (signed char)found.number : (unsigned char)found.number)
                         : is_signed ? (short)found.number : (unsigned short)found.number;
        else if (!is_signed && *size == '\0')
            found.unsigned_number = (unsigned)found.number;
    } else if (strchr("aAeEfFgG", letter) != NULL) {
        if (*size == 'D')
            found.long_real = va_arg(from->list, long double);
        else
            found.real = va_arg(from->list, double);
    } else if (letter != '%' && letter != 'm') {
        found.pointer = va_arg(from->list, void *);
    }
    return found;
}

static void read_size(const char **format, struct conversion *how)
{
    int count = 0;
    while (**format != '\0' && strchr("hlLqjzt", **format) != NULL) {
        char letter = *(*format)++;
        if (letter == 'L' || letter == 'q')
            letter = strchr("diouxX", **format) != NULL ? 'l' : 'D';
        if (count < 2)
            how->size[count++] = letter;
    }
    how->letter = **format;
    if (how->letter != '\0')
        ++*format;
    if (how->letter == 'C' || how->letter == 'S') {
        how->letter = how->letter == 'C' ? 'c' : 's';
        how->size[0] = 'l';
    }
}

/* A width or precision of `*` or of digits; a `*` takes an argument, by its number where it has one. */
static int read_amount(const char **format, struct arguments *from)
{
    if (**format != '*')
        return number_of(format);
    ++*format;
    if (from->numbered == NULL)
        return va_arg(from->list, int);
    int place = number_of(format);
    *format += **format == '$';
    return place >= 1 && place <= MOST_ARGUMENTS ? (int)from->numbered[place - 1].number : 0;
}

/* Reads what stands behind a `%`; the number of its argument, from 1, or 0. */
static int read_conversion(const char **format, struct arguments *from, struct conversion *how)
{
    int number = 0;
    const char *behind = *format;
    *how = (struct conversion){.precision = -1};
    if (from->numbered != NULL && (number = number_of(&behind)) > 0 && *behind == '$')
        *format = behind + 1;
    else
        number = 0;
    read_flags(format, how);
    how->width = read_amount(format, from);
    if (how->width < 0) {
        how->is_left = true;
        how->width = how->width == INT_MIN ? INT_MAX : -how->width;
    }
    if (**format == '.') {
        ++*format;
        how->precision = read_amount(format, from);
        if (how->precision < 0)
            how->precision = -1;
    }
    read_size(format, how);
    return number;
}

/* Arguments by their numbers: what each is, is collected first, and then they are taken in order. */

struct kind {
    char letter;
    char size[2];
};

static void note_kind(struct kind *kinds, int number, char letter, const char *size)
{
    if (number >= 1 && number <= MOST_ARGUMENTS)
        kinds[number - 1] = (struct kind){letter, {size[0], size[1]}};
}

static void note_stars(const char *from, const char *to, struct kind *kinds)
{
    for (; from < to; ++from) {
        if (*from == '*') {
            const char *behind = from + 1;
            note_kind(kinds, number_of(&behind), 'd', "\0");
        }
    }
}

static void take_numbered(struct arguments *from, const char *format)
{
    struct kind kinds[MOST_ARGUMENTS] = {0};
    struct conversion how;
    while ((format = strchr(format, '%')) != NULL) {
        const char *begin = ++format;
        int number = read_conversion(&format, from, &how);
        note_stars(begin, format, kinds);
        note_kind(kinds, number, how.letter, how.size);
    }
    for (int at = 0; at < MOST_ARGUMENTS && kinds[at].letter != '\0'; ++at)
        from->numbered[at] = take(from, kinds[at].letter, kinds[at].size);
}

static bool has_numbers(const char *format)
{
    while ((format = strchr(format, '%')) != NULL) {
        ++format;
        if (number_of(&format) > 0 && *format == '$')
            return true;
        format += *format == '%';
    }
    return false;
}

/* Putting values. */

static void put_text(struct sink *sink, const struct conversion *how, const char *text)
{
    size_t most = how->precision < 0 ? SIZE_MAX : (size_t)how->precision;
    struct conversion spaces = *how;
    if (text == NULL)
        text = most < 6 ? "" : "(null)";
    size_t length = strnlen(text, most);
    spaces.has_zeros = false;
    begin_value(sink, &spaces, "", (int)length);
    put_some(sink, text, (int)length);
    end_value(sink, &spaces, "", (int)length);
}

/* How many bytes the wide text has, of at most so many; -1 where a character has none. */
static int wide_length(const wchar_t *text, size_t most)
{
    mbstate_t state = {0};
    char bytes[MB_LEN_MAX + 16];
    size_t length = 0;
    for (; length < most && *text != L'\0'; ++text) {
        size_t count = wcrtomb(bytes, *text, &state);
        if (count == (size_t)-1)
            return -1;
        if (count > most - length)
            break;
        length += count;
    }
    return (int)length;
}

static void put_wide_text(struct sink *sink, const struct conversion *how, const wchar_t *text)
{
    mbstate_t state = {0};
    char bytes[MB_LEN_MAX + 16];
    int length = wide_length(text == NULL ? L"(null)" : text, how->precision < 0 ? SIZE_MAX : (size_t)how->precision);
    if (length < 0) {
        sink->has_failed = true;
        return;
    }
    begin_value(sink, how, "", length);
    for (int done = 0; done < length; ++text) {
        size_t count = wcrtomb(bytes, text == NULL ? L'?' : *text, &state);
        put_some(sink, bytes, (int)count);
        done += (int)count;
    }
    end_value(sink, how, "", length);
}

static void put_character(struct sink *sink, const struct conversion *how, union argument value)
{
    if (*how->size == 'l') {
        wchar_t text[2] = {(wchar_t)value.number, L'\0'};
        put_wide_text(sink, how, text);
        return;
    }
    char byte = (char)value.number;
    struct conversion spaces = *how;
    spaces.has_zeros = false;
    begin_value(sink, &spaces, "", 1);
    put_some(sink, &byte, 1);
    end_value(sink, &spaces, "", 1);
}

/* The digits of a number at the end of the room; where they begin. */
static char *digits_before(char *end, uintmax_t number, unsigned base, bool is_upper)
{
    const char *letters = is_upper ? "0123456789ABCDEF" : "0123456789abcdef";
    for (; number != 0; number /= base)
        *--end = letters[number % base];
    return end;
}

static void put_integer(struct sink *sink, const struct conversion *how, uintmax_t number, const char *sign)
{
    char room[24];
    struct conversion padding = *how;
    unsigned base = strchr("xXp", how->letter) != NULL ? 16 : how->letter == 'o' ? 8 : 10;
    char *begin = digits_before(room + sizeof room, number, base, how->letter == 'X');
    int length = (int)(room + sizeof room - begin);
    int zeros = how->precision < 0 ? length == 0 : how->precision > length ? how->precision - length : 0;
    if (how->letter == 'o' && how->is_other && zeros == 0)
        zeros = 1;
    if (base == 16 && (how->letter == 'p' || (how->is_other && number != 0)))
        sign = how->letter == 'X' ? "0X" : "0x";
    padding.has_zeros = how->has_zeros && how->precision < 0;
    begin_value(sink, &padding, sign, zeros + length);
    put_many(sink, '0', zeros);
    put_some(sink, begin, length);
    end_value(sink, &padding, sign, zeros + length);
}

static void put_signed(struct sink *sink, const struct conversion *how, intmax_t number)
{
    const char *sign = number < 0 ? "-" : how->has_sign ? "+" : how->has_space ? " " : "";
    put_integer(sink, how, number < 0 ? -(uintmax_t)number : (uintmax_t)number, sign);
}

/* Leaves how many bytes there are so far where the pointer is to. */
static void leave_count(const struct sink *sink, const struct conversion *how, void *to)
{
    if (how->size[0] == 'h' && how->size[1] == 'h')
        *(signed char *)to = (signed char)sink->count;
    else if (how->size[0] == 'h')
        *(short *)to = (short)sink->count;
    else if (how->size[0] == '\0')
        *(int *)to = (int)sink->count;
    else
        *(long *)to = (long)sink->count;
}

static void put_value(struct sink *sink, const struct conversion *how, union argument value, int error)
{
    switch (how->letter) {
    case 'd': case 'i': put_signed(sink, how, value.number); break;
    case 'u': case 'o': case 'x': case 'X': put_integer(sink, how, value.unsigned_number, ""); break;
    case 'p': put_integer(sink, how, (uintptr_t)value.pointer, ""); break;
    case 'c': put_character(sink, how, value); break;
    case 's':
        if (*how->size == 'l')
            put_wide_text(sink, how, value.pointer);
        else
            put_text(sink, how, value.pointer);
        break;
    case 'm': put_text(sink, how, strerror(error)); break;
    case 'n': leave_count(sink, how, value.pointer); break;
    case '%': put_some(sink, "%", 1); break;
    default:
        if (*how->size == 'D')
            put_binary(sink, how, binary_of_long(value.long_real), true);
        else
            put_binary(sink, how, binary_of_double(value.real), false);
    }
}

void format_into(struct sink *sink, const char *format, va_list list)
{
    union argument numbered[MOST_ARGUMENTS];
    struct arguments from = {.numbered = has_numbers(format) ? numbered : NULL};
    struct conversion how;
    int error = errno;
    va_copy(from.list, list);
    if (from.numbered != NULL)
        take_numbered(&from, format);
    while (*format != '\0' && !sink->has_failed) {
        const char *end = strchrnul(format, '%');
        put_some(sink, format, (int)(end - format));
        if (*end == '\0')
            break;
        format = end + 1;
        int number = read_conversion(&format, &from, &how);
        if (how.letter == '\0' || strchr("diouxXcspnmaAeEfFgG%", how.letter) == NULL) {
            sink->has_failed = true;
            errno = EINVAL;
            break;
        }
        union argument value = {0};
        if (number >= 1 && number <= MOST_ARGUMENTS)
            value = from.numbered[number - 1];
        else
            value = take(&from, how.letter, how.size);
        put_value(sink, &how, value, error);
    }
    va_end(from.list);
}

int format_result(const struct sink *sink)
{
    if (sink->has_failed)
        return -1;
    if (sink->count <= INT_MAX)
        return (int)sink->count;
    errno = EOVERFLOW;
    return -1;
}
