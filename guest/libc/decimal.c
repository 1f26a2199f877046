/* Binary numbers to digits, and digits to binary numbers, by integers of words of nine digits. */
#include "decimal.h"

#include <errno.h>
#include <string.h>

#define BASE 1000000000u

const struct binary_format float_format = {24, -149, 104};
const struct binary_format double_format = {53, -1074, 971};
const struct binary_format long_format = {113, -16494, 16271};

struct binary binary_of_double(double value)
{
    uint64_t bits;
    memcpy(&bits, &value, sizeof bits);
    int exponent = (int)(bits >> 52 & 0x7ff);
    uint64_t mantissa = bits & ((UINT64_C(1) << 52) - 1);
    struct binary found = {FINITE, bits >> 63 != 0, mantissa, -1074};
    if (exponent == 0x7ff)
        found.kind = mantissa == 0 ? INFINITE : NOT_A_NUMBER;
    else if (exponent > 0) {
        found.mantissa |= UINT64_C(1) << 52;
        found.exponent = exponent - 1075;
    }
    return found;
}

struct binary binary_of_long(long double value)
{
    wide bits;
    memcpy(&bits, &value, sizeof bits);
    int exponent = (int)(bits >> 112 & 0x7fff);
    wide mantissa = bits & (((wide)1 << 112) - 1);
    struct binary found = {FINITE, bits >> 127 != 0, mantissa, -16494};
    if (exponent == 0x7fff)
        found.kind = mantissa == 0 ? INFINITE : NOT_A_NUMBER;
    else if (exponent > 0) {
        found.mantissa |= (wide)1 << 112;
        found.exponent = exponent - 16495;
    }
    return found;
}

/* The number in the words, of which the first is the lowest, times a factor; the count of words then. */
static int multiplied(uint32_t *words, int count, uint32_t factor)
{
    uint64_t carry = 0;
    for (int at = 0; at < count; ++at) {
        carry += (uint64_t)words[at] * factor;
        words[at] = (uint32_t)(carry % BASE);
        carry /= BASE;
    }
    if (carry != 0)
        words[count++] = (uint32_t)carry;
    return count;
}

/* Four parts of 32 bits, the highest first: what is there moves up, and the part is added. */
static int words_of(wide number, uint32_t *words)
{
    int count = 0;
    for (int part = 3; part >= 0; --part) {
        uint64_t carry = (uint32_t)(number >> 32 * part);
        for (int at = 0; at < count; ++at) {
            carry += (uint64_t)words[at] << 32;
            words[at] = (uint32_t)(carry % BASE);
            carry /= BASE;
        }
        for (; carry != 0; carry /= BASE)
            words[count++] = (uint32_t)(carry % BASE);
    }
    return count;
}

/* A number below a power of two is its integer times that of five, with the point further to the left. */
static int scaled(struct binary value, uint32_t *words, int *point)
{
    int rest = value.exponent;
    while (rest < 0 && value.mantissa % 2 == 0) {
        value.mantissa /= 2;
        ++rest;
    }
    int count = words_of(value.mantissa, words);
    *point = rest < 0 ? rest : 0;
    for (; rest >= 29; rest -= 29)
        count = multiplied(words, count, UINT32_C(1) << 29);
    if (rest > 0)
        count = multiplied(words, count, UINT32_C(1) << rest);
    for (; rest <= -12; rest += 12)
        count = multiplied(words, count, 244140625);
    for (; rest < 0; ++rest)
        count = multiplied(words, count, 5);
    return count;
}

struct digits digits_of(struct binary value, char *text, uint32_t *words)
{
    struct digits found = {text, 0, 0};
    int point;
    if (value.mantissa == 0)
        return found;
    int count = scaled(value, words, &point);
    for (int at = count - 1; at >= 0; --at) {
        uint32_t word = words[at];
        for (uint32_t ten = BASE / 10; ten != 0; ten /= 10) {
            char digit = (char)(word / ten % 10);
            if (digit != 0 || found.count > 0)
                text[found.count++] = digit;
        }
    }
    found.point = found.count + point;
    while (found.count > 0 && text[found.count - 1] == 0)
        --found.count;
    return found;
}

void round_digits(struct digits *digits, int count)
{
    if (count >= digits->count)
        return;
    if (count < 0) {
        digits->count = 0;
        return;
    }
    char next = digits->text[count];
    bool is_half = next == 5 && count + 1 == digits->count;
    bool is_odd = count > 0 && digits->text[count - 1] % 2 == 1;
    digits->count = count;
    if (next < 5 || (is_half && !is_odd))
        return;
    while (digits->count > 0 && digits->text[digits->count - 1] == 9)
        --digits->count;
    if (digits->count > 0) {
        ++digits->text[digits->count - 1];
    } else {
        digits->text[0] = 1;
        digits->count = 1;
        ++digits->point;
    }
}

static int length_of(wide number)
{
    uint64_t high = (uint64_t)(number >> 64), low = (uint64_t)number;
    return high != 0 ? 128 - __builtin_clzll(high) : low != 0 ? 64 - __builtin_clzll(low) : 0;
}

/* How many of the lowest bits the format has no room for. A mantissa with room is moved up where its exponent is too great. */
static int bits_to_drop(struct binary *value, const struct binary_format *format)
{
    int length = length_of(value->mantissa);
    int drop = length - format->mantissa_bits;
    int room = value->exponent - format->greatest;
    if (drop < 0 && room > 0 && room <= -drop) {
        value->mantissa <<= room;
        value->exponent -= room;
        return 0;
    }
    if (drop < format->least - value->exponent)
        drop = format->least - value->exponent;
    return drop < 0 ? 0 : drop > 127 ? 127 : drop;
}

struct binary rounded(struct binary value, bool has_more, const struct binary_format *format)
{
    if (value.kind != FINITE || value.mantissa == 0)
        return value;
    int drop = bits_to_drop(&value, format);
    wide dropped = value.mantissa & (((wide)1 << drop) - 1);
    wide half = drop > 0 ? (wide)1 << (drop - 1) : 0;
    bool is_inexact = dropped != 0 || has_more;
    value.mantissa >>= drop;
    value.exponent += drop;
    if (drop > 0 && (dropped > half || (dropped == half && (has_more || value.mantissa % 2 == 1))))
        ++value.mantissa;
    if (value.mantissa >> format->mantissa_bits != 0) {
        value.mantissa >>= 1;
        ++value.exponent;
    }
    if (value.exponent > format->greatest || value.exponent < format->least) {
        value.kind = value.exponent > 0 ? INFINITE : FINITE;
        value.mantissa = 0;
        errno = ERANGE;
    } else if (is_inexact && value.mantissa >> (format->mantissa_bits - 1) == 0 && value.exponent == format->least) {
        errno = ERANGE;
    }
    return value;
}

/* Digits as words with a point among them: those before it are the integer. */
struct pointed {
    uint32_t *words; /* the highest first */
    int count;
    int integers; /* how many of them stand before the point */
};

static struct pointed pointed_of(const struct digits *digits, uint32_t *words)
{
    int before = digits->point > 0 ? (digits->point + 8) / 9 : -(-digits->point / 9);
    int skip = before * 9 - digits->point; /* zeros before the first digit in its word */
    struct pointed found = {words, 0, before};
    int at = -skip;
    while (at < digits->count || found.count < before) {
        uint32_t word = 0;
        for (int place = 0; place < 9; ++place, ++at)
            word = word * 10 + (at >= 0 && at < digits->count ? (uint32_t)digits->text[at] : 0);
        words[found.count++] = word;
    }
    return found;
}

/* Times two to this power, at most 29. */
static void shift_left(struct pointed *number, int power, int room)
{
    uint64_t carry = 0;
    for (int at = number->count - 1; at >= 0; --at) {
        carry += (uint64_t)number->words[at] << power;
        number->words[at] = (uint32_t)(carry % BASE);
        carry /= BASE;
    }
    while (number->count > 0 && number->words[number->count - 1] == 0)
        --number->count;
    if (carry == 0)
        return;
    if (number->count == room)
        number->words[--number->count - 1] |= 1; /* what is lost isn't 0 */
    memmove(number->words + 1, number->words, (size_t)number->count * sizeof *number->words);
    number->words[0] = (uint32_t)carry;
    ++number->count;
    ++number->integers;
}

/* Divided by two to the ninth, by which BASE can be divided. */
static void shift_right(struct pointed *number, int room)
{
    uint32_t carry = 0;
    for (int at = 0; at < number->count; ++at) {
        uint32_t word = number->words[at];
        number->words[at] = (word >> 9) + carry;
        carry = (word & 511) * (BASE >> 9);
    }
    if (carry != 0 && number->count < room)
        number->words[number->count++] = carry;
    else if (carry != 0)
        number->words[number->count - 1] |= 1;
    int zeros = 0;
    while (zeros < number->count && number->words[zeros] == 0)
        ++zeros;
    memmove(number->words, number->words + zeros, (size_t)(number->count - zeros) * sizeof *number->words);
    number->count -= zeros;
    number->integers -= zeros;
}

/* The integer before the point, where it has at most four words. */
static wide integer_of(const struct pointed *number)
{
    wide found = 0;
    for (int at = 0; at < number->integers; ++at)
        found = found * BASE + (at < number->count ? number->words[at] : 0);
    return found;
}

/* Up to 15 digits, and powers of ten up to the 22nd, are doubles exactly, so one multiplication or division rounds as it should. */
static bool is_simple(const struct digits *digits, double *value)
{
    static const double powers[] = {1e0,  1e1,  1e2,  1e3,  1e4,  1e5,  1e6,  1e7,  1e8,  1e9,  1e10, 1e11,
                                    1e12, 1e13, 1e14, 1e15, 1e16, 1e17, 1e18, 1e19, 1e20, 1e21, 1e22};
    int ten = digits->point - digits->count;
    int64_t number = 0;
    if (digits->count > 15 || ten < -22 || ten > 22)
        return false;
    for (int at = 0; at < digits->count; ++at)
        number = number * 10 + digits->text[at];
    *value = ten < 0 ? (double)number / powers[-ten] : (double)number * powers[ten];
    return true;
}

/* The number is shifted until its integer has 116 to 125 bits. */
struct binary binary_of_digits(const struct digits *digits, uint32_t *words, int room, const struct binary_format *format)
{
    struct binary found = {FINITE, false, 0, 0};
    double value;
    if (digits->count == 0)
        return found;
    if (format == &double_format && is_simple(digits, &value))
        return binary_of_double(value);
    int most = (format->greatest + format->mantissa_bits) / 3 + 20, least = format->least / 3 - 20; /* a digit has over three bits */
    if (digits->point > most || digits->point < least) {
        found.kind = digits->point > 0 ? INFINITE : FINITE;
        errno = ERANGE;
        return found;
    }
    struct pointed number = pointed_of(digits, words);
    while (number.integers < 4 || (number.integers == 4 && integer_of(&number) >> 116 == 0)) {
        int power = number.integers < 4 ? 29 : 9;
        shift_left(&number, power, room);
        found.exponent -= power;
    }
    while (number.integers > 5 || (number.integers == 5 && number.words[0] > 40)) {
        shift_right(&number, room);
        found.exponent += 9;
    }
    found.mantissa = integer_of(&number);
    return rounded(found, number.count > number.integers, format);
}
