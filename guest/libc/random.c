/* random and its kin, whose numbers are those of GNU's C library: each is the sum of two earlier ones. */
#include <errno.h>
#include <stdint.h>
#include <stdlib.h>

#define NUMBERS 31   /* that are kept */
#define BETWEEN 3    /* how far apart the two are */
#define THROWN 310   /* how many are thrown away at the start */
#define WHOLE ((NUMBERS + 1) * sizeof(uint32_t))

/* What a state is, in the bytes that a program gives: the place of the next number, and the numbers. */
struct state {
    uint32_t place;
    uint32_t numbers[NUMBERS];
};

static struct state first;
static struct state *now = &first;
static int is_seeded;

static uint32_t next(void)
{
    uint32_t *number = &now->numbers[now->place];
    *number += now->numbers[(now->place + NUMBERS - BETWEEN) % NUMBERS];
    now->place = (now->place + 1) % NUMBERS;
    return *number >> 1;
}

void srandom(unsigned seed)
{
    int64_t number = seed == 0 ? 1 : (int32_t)seed;
    is_seeded = 1;
    for (int at = 0; at < NUMBERS; ++at) {
        now->numbers[at] = (uint32_t)number;
        number = 16807 * (number % 127773) - 2836 * (number / 127773);
        if (number < 0)
            number += 2147483647;
    }
    now->place = BETWEEN;
    for (int count = 0; count < THROWN; ++count)
        next();
}

long random(void)
{
    if (!is_seeded)
        srandom(1);
    return (long)next();
}

/* A state needs room for all numbers; a smaller one is refused. */
char *initstate(unsigned seed, char *bytes, size_t size)
{
    char *before = (char *)now;
    if (size < WHOLE) {
        errno = EINVAL;
        return NULL;
    }
    now = (struct state *)bytes;
    srandom(seed);
    return before;
}

char *setstate(char *bytes)
{
    char *before = (char *)now;
    now = (struct state *)bytes;
    return before;
}
