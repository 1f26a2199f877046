/* The parts of a format of printf: what stands between `%` and the letter, and how the pieces of a value are put. */
#ifndef FORMAT_H
#define FORMAT_H

#include "decimal.h"
#include "stream.h"

struct conversion {
    bool is_left, has_sign, has_space, is_other, has_zeros;
    int width;
    int precision; /* -1 where there is none */
    char size[2];  /* the letters before the last one, as in "ll"; 'D' is long double's */
    char letter;
};

/* Puts bytes; none where the count isn't above 0. */
void put_some(struct sink *sink, const char *bytes, int count);

/* Puts a byte so many times. */
void put_many(struct sink *sink, char byte, int count);

/* Puts what stands before a value of this length: spaces, or its sign and zeros; then the value goes in, and end_value. */
void begin_value(struct sink *sink, const struct conversion *how, const char *sign, int length);
void end_value(struct sink *sink, const struct conversion *how, const char *sign, int length);

/* Puts a floating-point number. */
void put_binary(struct sink *sink, const struct conversion *how, struct binary value, bool is_long);

#endif
