/* strtod and its kin: texts to the nearest floating-point number. */
#define _GNU_SOURCE
#include "decimal.h"

#include <ctype.h>
#include <errno.h>
#include <stdlib.h>
#include <string.h>
#include <strings.h>

/* Digits that count: those behind them can only say that there is more. */
#define MOST_DOUBLE 790
#define DOUBLE_ROOM 220
#define MOST_LONG 11590
#define LONG_ROOM 2000

/* A text that is read, up to where it is a number. */
struct reading {
    const char *at;
    struct binary value;
};

/* The exponent behind a letter, or 0 where there is none; the place moves behind it. */
static int read_exponent(const char **at, char letter)
{
    const char *from = *at;
    int exponent = 0;
    if ((*from | 32) != letter)
        return 0;
    bool is_negative = *++from == '-';
    if (*from == '-' || *from == '+')
        ++from;
    if (!isdigit((unsigned char)*from))
        return 0;
    for (; isdigit((unsigned char)*from); ++from) {
        if (exponent < 100000)
            exponent = exponent * 10 + (*from - '0');
    }
    *at = from;
    return is_negative ? -exponent : exponent;
}

static int value_of_digit(char letter)
{
    return isdigit((unsigned char)letter) ? letter - '0' : (letter | 32) - 'a' + 10;
}

/* Behind `0x`: digits of four bits. */
static bool read_hexadecimal(struct reading *reading, const struct binary_format *format)
{
    const char *at = reading->at;
    bool has_digit = false, is_behind = false, has_more = false;
    struct binary found = {FINITE, reading->value.is_negative, 0, 0};
    for (; isxdigit((unsigned char)*at) || (*at == '.' && !is_behind); ++at) {
        if (*at == '.') {
            is_behind = true;
            continue;
        }
        has_digit = true;
        if (found.mantissa >> 120 == 0)
            found.mantissa = found.mantissa << 4 | (wide)value_of_digit(*at);
        else {
            has_more |= *at != '0';
            found.exponent += 4;
        }
        found.exponent -= is_behind ? 4 : 0;
    }
    if (!has_digit)
        return false;
    found.exponent += read_exponent(&at, 'p');
    reading->at = at;
    reading->value = rounded(found, has_more, format);
    return true;
}

/* The decimal digits of a number; false where there is none. */
static bool read_digits(const char **place, struct digits *digits, int most)
{
    const char *at = *place;
    bool has_digit = false, is_behind = false;
    *digits = (struct digits){digits->text, 0, 0};
    for (; isdigit((unsigned char)*at) || (*at == '.' && !is_behind); ++at) {
        if (*at == '.') {
            is_behind = true;
            continue;
        }
        has_digit = true;
        bool is_first = digits->count == 0 && *at == '0';
        digits->point += is_behind ? (is_first ? -1 : 0) : (is_first ? 0 : 1);
        if (is_first)
            continue;
        if (digits->count < most)
            digits->text[digits->count++] = (char)(*at - '0');
        else if (*at != '0')
            digits->text[most - 1] = 1 | digits->text[most - 1];
    }
    if (!has_digit)
        return false;
    digits->point += read_exponent(&at, 'e');
    while (digits->count > 0 && digits->text[digits->count - 1] == 0)
        --digits->count;
    *place = at;
    return true;
}

static bool read_word(struct reading *reading)
{
    const char *at = reading->at;
    if (strncasecmp(at, "inf", 3) == 0) {
        reading->value.kind = INFINITE;
        reading->at += strncasecmp(at, "infinity", 8) == 0 ? 8 : 3;
        return true;
    }
    if (strncasecmp(at, "nan", 3) != 0)
        return false;
    reading->value.kind = NOT_A_NUMBER;
    reading->at += 3;
    if (at[3] == '(') {
        size_t length = strspn(at + 4, "0123456789abcdefghijklmnopqrstuvwxyzABCDEFGHIJKLMNOPQRSTUVWXYZ_");
        if (at[4 + length] == ')')
            reading->at += length + 2;
    }
    return true;
}

/* Reads a number; false where there is none. */
static bool read_real(struct reading *reading, const struct binary_format *format, char *text, int most, uint32_t *words, int room)
{
    struct digits digits = {text, 0, 0};
    while (isspace((unsigned char)*reading->at))
        ++reading->at;
    bool is_negative = *reading->at == '-';
    reading->value.is_negative = is_negative;
    if (*reading->at == '-' || *reading->at == '+')
        ++reading->at;
    if (read_word(reading))
        return true;
    if (reading->at[0] == '0' && (reading->at[1] | 32) == 'x') {
        struct reading behind = {reading->at + 2, reading->value};
        if (read_hexadecimal(&behind, format)) {
            *reading = behind;
            return true;
        }
    }
    if (!read_digits(&reading->at, &digits, most))
        return false;
    reading->value = binary_of_digits(&digits, words, room, format);
    reading->value.is_negative = is_negative;
    return true;
}

/* The exponent field and the mantissa's bits of a number, in a format whose mantissas have so many bits. */
static unsigned fields_of(struct binary *value, int bits, int least)
{
    if (value->mantissa == 0)
        return 0;
    while (value->mantissa >> (bits - 1) == 0 && value->exponent > least) {
        value->mantissa <<= 1;
        --value->exponent;
    }
    return value->mantissa >> (bits - 1) == 0 ? 0 : (unsigned)(value->exponent - least + 1);
}

static double double_of(struct binary value)
{
    double found;
    uint64_t bits = (uint64_t)fields_of(&value, 53, -1074) << 52 | ((uint64_t)value.mantissa & ((UINT64_C(1) << 52) - 1));
    if (value.kind != FINITE)
        bits = UINT64_C(0x7ff) << 52 | (value.kind == NOT_A_NUMBER ? UINT64_C(1) << 51 : 0);
    bits |= (uint64_t)value.is_negative << 63;
    memcpy(&found, &bits, sizeof found);
    return found;
}

static long double long_of(struct binary value)
{
    long double found;
    wide bits = (wide)fields_of(&value, 113, -16494) << 112 | (value.mantissa & (((wide)1 << 112) - 1));
    if (value.kind != FINITE)
        bits = (wide)0x7fff << 112 | (value.kind == NOT_A_NUMBER ? (wide)1 << 111 : 0);
    bits |= (wide)value.is_negative << 127;
    memcpy(&found, &bits, sizeof found);
    return found;
}

static double read_double(const char *text, char **end, const struct binary_format *format)
{
    char digits[MOST_DOUBLE];
    uint32_t words[DOUBLE_ROOM];
    struct reading reading = {text, {FINITE, false, 0, 0}};
    bool is_number = read_real(&reading, format, digits, MOST_DOUBLE, words, DOUBLE_ROOM);
    if (end != NULL)
        *end = (char *)(is_number ? reading.at : text);
    return is_number ? double_of(reading.value) : 0;
}

double strtod(const char *restrict text, char **restrict end)
{
    return read_double(text, end, &double_format);
}

float strtof(const char *restrict text, char **restrict end)
{
    return (float)read_double(text, end, &float_format);
}

long double strtold(const char *restrict text, char **restrict end)
{
    char digits[MOST_LONG];
    uint32_t words[LONG_ROOM];
    struct reading reading = {text, {FINITE, false, 0, 0}};
    bool is_number = read_real(&reading, &long_format, digits, MOST_LONG, words, LONG_ROOM);
    if (end != NULL)
        *end = (char *)(is_number ? reading.at : text);
    return is_number ? long_of(reading.value) : 0;
}

double atof(const char *text)
{
    return strtod(text, NULL);
}
