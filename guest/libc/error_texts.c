/* strerror and its kin. */
#define _GNU_SOURCE
#include <errno.h>
#include <stddef.h>
#include <stdint.h>
#include <string.h>

/* All texts, one behind another, and where that of each number begins: so none has an address of its own. */
static const struct texts {
    char none[1];
#define E(number, text) char of_##number[sizeof text];
#include "error_texts.h"
#undef E
} texts = {
    "",
#define E(number, text) text,
#include "error_texts.h"
#undef E
};

static const uint16_t places[] = {
#define E(number, text) [number] = offsetof(struct texts, of_##number),
#include "error_texts.h"
#undef E
};

/* The text of an error that has one, or NULL. */
static const char *text_of(int number)
{
    if (number == 0)
        return "Success";
    if (number < 0 || (size_t)number >= sizeof places / sizeof *places || places[number] == 0)
        return NULL;
    return (const char *)&texts + places[number];
}

/* `Unknown error 12345`, at the place's end. */
static char *unknown(int number, char *room, size_t size)
{
    static const char begin[] = "Unknown error ";
    char digits[12], *at = digits + sizeof digits;
    unsigned rest = number < 0 ? -(unsigned)number : (unsigned)number;
    *--at = '\0';
    do {
        *--at = (char)('0' + rest % 10);
        rest /= 10;
    } while (rest != 0);
    if (number < 0)
        *--at = '-';
    strlcpy(room, begin, size);
    strlcat(room, at, size);
    return room;
}

char *strerror(int number)
{
    static char room[32];
    const char *text = text_of(number);
    return text == NULL ? unknown(number, room, sizeof room) : (char *)text;
}

char *strerror_l(int number, locale_t locale)
{
    (void)locale;
    return strerror(number);
}

/* picolibc's own, which its other parts call. */
char *_strerror_r(int number, int is_internal, int *error)
{
    (void)is_internal, (void)error;
    return strerror(number);
}

/* GNU's, which gives a text, and POSIX's, which gives an error. string.h says which one a program has. */
#undef strerror_r
char *strerror_r(int number, char *room, size_t size)
{
    const char *text = text_of(number);
    return text == NULL ? unknown(number, room, size) : (char *)text;
}

int __xpg_strerror_r(int number, char *room, size_t size)
{
    const char *text = text_of(number);
    if (text == NULL)
        unknown(number, room, size);
    else if (strlcpy(room, text, size) >= size)
        return ERANGE;
    return text == NULL ? EINVAL : 0;
}
