/* printf: floating-point numbers, to any number of digits. */
#include "format.h"

#include <string.h>

/* The sign, or what stands in its place. */
static const char *sign_of(const struct conversion *how, bool is_negative)
{
    return is_negative ? "-" : how->has_sign ? "+" : how->has_space ? " " : "";
}

static bool is_upper(const struct conversion *how)
{
    return strchr("AEFG", how->letter) != NULL;
}

static void put_word(struct sink *sink, const struct conversion *how, const char *sign, const char *word)
{
    struct conversion spaces = *how;
    spaces.has_zeros = false;
    begin_value(sink, &spaces, sign, (int)strlen(word));
    put_some(sink, word, (int)strlen(word));
    end_value(sink, &spaces, sign, (int)strlen(word));
}

/* Puts `count` digits from a place on; outside the digits are zeros. */
static void put_digits(struct sink *sink, const struct digits *digits, int from, int count)
{
    char some[64];
    while (count > 0) {
        int length = 0;
        for (; length < (int)sizeof some && length < count; ++length, ++from)
            some[length] = from >= 0 && from < digits->count ? (char)('0' + digits->text[from]) : '0';
        put_some(sink, some, length);
        count -= length;
    }
}

/* An exponent as printf writes it: a sign and at least so many digits. */
static int exponent_text(char *text, char letter, int exponent, int least)
{
    char reversed[8];
    int count = 0, length = 0;
    unsigned rest = (unsigned)(exponent < 0 ? -exponent : exponent);
    for (; rest != 0 || count < least; rest /= 10)
        reversed[count++] = (char)('0' + rest % 10);
    text[length++] = letter;
    text[length++] = exponent < 0 ? '-' : '+';
    while (count > 0)
        text[length++] = reversed[--count];
    return length;
}

/* As in 12.50: the digits are rounded. */
static void put_fixed(struct sink *sink, const struct conversion *how, const char *sign, const struct digits *digits, int precision)
{
    int before = digits->count > 0 && digits->point > 0 ? digits->point : 0;
    bool has_point = precision > 0 || how->is_other;
    int length = (before > 0 ? before : 1) + has_point + precision;
    begin_value(sink, how, sign, length);
    if (before > 0)
        put_digits(sink, digits, 0, before);
    else
        put_many(sink, '0', 1);
    put_some(sink, ".", has_point);
    put_digits(sink, digits, digits->count == 0 ? 0 : digits->point, precision);
    end_value(sink, how, sign, length);
}

/* As in 1.25e+01. */
static void put_scientific(struct sink *sink, const struct conversion *how, const char *sign, const struct digits *digits, int precision)
{
    char exponent[12];
    int behind = exponent_text(exponent, is_upper(how) ? 'E' : 'e', digits->count == 0 ? 0 : digits->point - 1, 2);
    bool has_point = precision > 0 || how->is_other;
    int length = 1 + has_point + precision + behind;
    begin_value(sink, how, sign, length);
    put_digits(sink, digits, 0, 1);
    put_some(sink, ".", has_point);
    put_digits(sink, digits, 1, precision);
    put_some(sink, exponent, behind);
    end_value(sink, how, sign, length);
}

/* `%g`: the shorter of the two, without zeros at the end. */
static void put_general(struct sink *sink, const struct conversion *how, const char *sign, struct digits *digits, int precision)
{
    if (precision == 0)
        precision = 1;
    round_digits(digits, precision);
    while (digits->count > 0 && digits->text[digits->count - 1] == 0)
        --digits->count;
    int exponent = digits->count == 0 ? 0 : digits->point - 1;
    int shown = how->is_other ? precision : digits->count == 0 ? 1 : digits->count;
    if (exponent < -4 || exponent >= precision)
        put_scientific(sink, how, sign, digits, shown - 1);
    else
        put_fixed(sink, how, sign, digits, shown - 1 - exponent > 0 ? shown - 1 - exponent : 0);
}

static void put_decimal(struct sink *sink, const struct conversion *how, const char *sign, struct digits *digits)
{
    int precision = how->precision < 0 ? 6 : how->precision;
    switch (how->letter | 32) {
    case 'f':
        if (digits->point + (long)precision < digits->count)
            round_digits(digits, digits->point + precision);
        put_fixed(sink, how, sign, digits, precision);
        break;
    case 'e':
        if (precision < digits->count)
            round_digits(digits, precision + 1);
        put_scientific(sink, how, sign, digits, precision);
        break;
    default:
        put_general(sink, how, sign, digits, precision);
    }
}

static void put_double(struct sink *sink, const struct conversion *how, const char *sign, struct binary value)
{
    char text[DOUBLE_DIGITS];
    uint32_t words[WORDS_OF(DOUBLE_DIGITS)];
    struct digits digits = digits_of(value, text, words);
    put_decimal(sink, how, sign, &digits);
}

static void put_long(struct sink *sink, const struct conversion *how, const char *sign, struct binary value)
{
    char text[LONG_DIGITS];
    uint32_t words[WORDS_OF(LONG_DIGITS)];
    struct digits digits = digits_of(value, text, words);
    put_decimal(sink, how, sign, &digits);
}

/* Without the lowest bits, rounded. */
static struct binary without_bits(struct binary value, int drop)
{
    wide dropped = value.mantissa & (((wide)1 << drop) - 1);
    wide half = drop > 0 ? (wide)1 << (drop - 1) : 1;
    value.mantissa >>= drop;
    value.exponent += drop;
    if (dropped > half || (dropped == half && value.mantissa % 2 == 1))
        ++value.mantissa;
    return value;
}

/* `%a`: the mantissa's bits as they are. */
static void put_hexadecimal(struct sink *sink, const struct conversion *how, const char *sign, struct binary value, bool is_long)
{
    const char *letters = is_upper(how) ? "0123456789ABCDEF" : "0123456789abcdef";
    int bits = is_long ? 113 : 53, full = (bits - 1) / 4;
    int behind = how->precision < 0 || how->precision > full ? full : how->precision;
    char text[32], exponent[12], start[4] = {0};
    int length = 0;
    value = without_bits(value, 4 * (full - behind));
    int shift = 4 * behind;
    for (int at = shift; at >= 0; at -= 4)
        text[length++] = letters[(unsigned)(value.mantissa >> at) & 15];
    while (how->precision < 0 && length > 1 && text[length - 1] == '0')
        --length;
    int zeros = how->precision > length - 1 ? how->precision - (length - 1) : 0;
    int tail = exponent_text(exponent, is_upper(how) ? 'P' : 'p', value.mantissa == 0 ? 0 : value.exponent + shift, 1);
    bool has_point = length + zeros > 1 || how->is_other;
    strcat(strcat(start, sign), is_upper(how) ? "0X" : "0x");
    begin_value(sink, how, start, length + zeros + has_point + tail);
    put_some(sink, text, 1);
    put_some(sink, ".", has_point);
    put_some(sink, text + 1, length - 1);
    put_many(sink, '0', zeros);
    put_some(sink, exponent, tail);
    end_value(sink, how, start, length + zeros + has_point + tail);
}

void put_binary(struct sink *sink, const struct conversion *how, struct binary value, bool is_long)
{
    const char *sign = sign_of(how, value.is_negative);
    if (value.kind == INFINITE)
        put_word(sink, how, sign, is_upper(how) ? "INF" : "inf");
    else if (value.kind == NOT_A_NUMBER)
        put_word(sink, how, sign, is_upper(how) ? "NAN" : "nan");
    else if ((how->letter | 32) == 'a')
        put_hexadecimal(sink, how, sign, value, is_long);
    else if (is_long)
        put_long(sink, how, sign, value);
    else
        put_double(sink, how, sign, value);
}
