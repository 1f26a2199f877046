/*
 * Copies, fills and searches of bytes, by words of eight where there are as many: the machine loads and stores words at any address, and
 * picolibc's functions go byte by byte. GCC mustn't see the loops as calls of these functions.
 */
#include <stddef.h>
#include <stdint.h>
#include <string.h>

#define BY_ITSELF __attribute__((optimize("no-tree-loop-distribute-patterns")))
#define WORD sizeof(uint64_t)

typedef uint64_t __attribute__((__may_alias__)) word;

/* Forwards; bytes that overlap may be moved so where they go to a lower address. */
BY_ITSELF static void copy_up(unsigned char *to, const unsigned char *from, size_t length)
{
    for (; length >= 4 * WORD; length -= 4 * WORD, to += 4 * WORD, from += 4 * WORD) {
        *(word *)to = *(const word *)from;
        *(word *)(to + WORD) = *(const word *)(from + WORD);
        *(word *)(to + 2 * WORD) = *(const word *)(from + 2 * WORD);
        *(word *)(to + 3 * WORD) = *(const word *)(from + 3 * WORD);
    }
    for (; length >= WORD; length -= WORD, to += WORD, from += WORD)
        *(word *)to = *(const word *)from;
    while (length-- > 0)
        *to++ = *from++;
}

BY_ITSELF static void copy_down(unsigned char *to, const unsigned char *from, size_t length)
{
    for (; length >= WORD; length -= WORD)
        *(word *)(to + length - WORD) = *(const word *)(from + length - WORD);
    while (length-- > 0)
        to[length] = from[length];
}

void *memcpy(void *restrict to, const void *restrict from, size_t length)
{
    copy_up(to, from, length);
    return to;
}

void *memmove(void *to, const void *from, size_t length)
{
    if ((uintptr_t)to - (uintptr_t)from >= length)
        copy_up(to, from, length);
    else
        copy_down(to, from, length);
    return to;
}

BY_ITSELF void *memset(void *to, int byte, size_t length)
{
    unsigned char *at = to;
    uint64_t all = (unsigned char)byte * UINT64_C(0x0101010101010101);
    for (; length >= 4 * WORD; length -= 4 * WORD, at += 4 * WORD) {
        *(word *)at = all;
        *(word *)(at + WORD) = all;
        *(word *)(at + 2 * WORD) = all;
        *(word *)(at + 3 * WORD) = all;
    }
    for (; length >= WORD; length -= WORD, at += WORD)
        *(word *)at = all;
    while (length-- > 0)
        *at++ = (unsigned char)byte;
    return to;
}

/* Whether a byte of the word is zero. */
static int has_zero(uint64_t it)
{
    return ((it - UINT64_C(0x0101010101010101)) & ~it & UINT64_C(0x8080808080808080)) != 0;
}

void *memchr(const void *bytes, int byte, size_t length)
{
    const unsigned char *at = bytes;
    uint64_t all = (unsigned char)byte * UINT64_C(0x0101010101010101);
    while (length >= WORD && !has_zero(*(const word *)at ^ all)) {
        at += WORD;
        length -= WORD;
    }
    for (; length > 0; --length, ++at) {
        if (*at == (unsigned char)byte)
            return (void *)at;
    }
    return NULL;
}

int memcmp(const void *left, const void *right, size_t length)
{
    const unsigned char *a = left, *b = right;
    while (length >= WORD && *(const word *)a == *(const word *)b) {
        a += WORD;
        b += WORD;
        length -= WORD;
    }
    for (; length > 0; --length, ++a, ++b) {
        if (*a != *b)
            return *a < *b ? -1 : 1;
    }
    return 0;
}
