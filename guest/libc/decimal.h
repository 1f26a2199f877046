/*
 * Floating-point numbers in binary and in decimal digits, both exact. A number of any format here is a sign, an integer of at most 113
 * bits, and a power of two.
 */
#ifndef DECIMAL_H
#define DECIMAL_H

#include <stdbool.h>
#include <stddef.h>
#include <stdint.h>

typedef unsigned __int128 wide;

enum binary_kind { FINITE, INFINITE, NOT_A_NUMBER };

struct binary {
    enum binary_kind kind;
    bool is_negative;
    wide mantissa; /* the value is the mantissa times two to the exponent */
    int exponent;
};

/* The bits of a format: of the mantissa, with the first one, and the least and greatest exponents of such a mantissa as an integer. */
struct binary_format {
    int mantissa_bits;
    int least, greatest;
};

extern const struct binary_format float_format, double_format, long_format;

struct binary binary_of_double(double value);
struct binary binary_of_long(long double value);

/* Digits from the first that isn't 0 on; the value is 0.DDD times ten to the point. No digits are 0. */
struct digits {
    char *text; /* numbers, not letters */
    int count;
    int point;
};

/* The room that all digits of a number take, and the words to make them. */
#define DOUBLE_DIGITS 800
#define LONG_DIGITS 11600
#define WORDS_OF(digits) ((digits) / 9 + 4)

/* All digits of a finite number. `words` has WORDS_OF as many words as `text` has room for digits. */
struct digits digits_of(struct binary value, char *text, uint32_t *words);

/* Rounds to the first `count` digits, to the even one where both are as near. */
void round_digits(struct digits *digits, int count);

/* The nearest number of a format; errno is ERANGE where it is none or one with fewer bits. */
struct binary binary_of_digits(const struct digits *digits, uint32_t *words, int room, const struct binary_format *format);

/* The nearest number of a format to a mantissa with bits behind it. */
struct binary rounded(struct binary value, bool has_more, const struct binary_format *format);

#endif
