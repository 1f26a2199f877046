/* malloc and its kin: blocks of all sizes that don't overlap, and memory that serves again; copies and searches of bytes. */
#include "check.h"

#include <malloc.h>
#include <stdint.h>
#include <stdlib.h>
#include <unistd.h>

#define BLOCKS 1000

static unsigned char *blocks[BLOCKS];
static size_t sizes[BLOCKS];
static uint32_t state = 1;

static uint32_t next(void)
{
    return (state = state * 1664525 + 1013904223) >> 8;
}

static size_t some_size(void)
{
    uint32_t kind = next() % 10;
    return kind < 7 ? next() % 200 : kind < 9 ? next() % 5000 : next() % 60000;
}

static int is_kept(int at)
{
    for (size_t place = 0; place < sizes[at]; place += 97) {
        if (blocks[at][place] != (unsigned char)at)
            return 0;
    }
    return sizes[at] == 0 || blocks[at][sizes[at] - 1] == (unsigned char)at;
}

/* Blocks are made, grown and freed at random; each keeps its bytes. */
static void mixed(void)
{
    int wrong = 0;
    for (int turn = 0; turn < 4000; ++turn) {
        int at = (int)(next() % BLOCKS);
        size_t size = some_size(), kept = size < sizes[at] ? size : sizes[at];
        wrong += blocks[at] != NULL && !is_kept(at);
        if (next() % 3 == 0) {
            free(blocks[at]);
            blocks[at] = malloc(size);
        } else {
            blocks[at] = realloc(blocks[at], size + 1);
            wrong += kept > 0 && blocks[at][0] != (unsigned char)at;
        }
        wrong += blocks[at] == NULL || (uintptr_t)blocks[at] % 16 != 0;
        sizes[at] = size;
        memset(blocks[at], at, size);
    }
    for (int at = 0; at < BLOCKS; ++at) {
        wrong += blocks[at] != NULL && !is_kept(at);
        free(blocks[at]);
    }
    CHECK(wrong == 0);
}

static void zeros(void)
{
    unsigned char *bytes = calloc(300, 7);
    int wrong = 0;
    for (int at = 0; at < 2100; ++at)
        wrong += bytes[at] != 0;
    CHECK(wrong == 0);
    free(bytes);
    volatile size_t huge = SIZE_MAX / 2;
    CHECK(calloc(huge, 3) == NULL && errno == ENOMEM);
    errno = 0;
    CHECK(malloc(huge) == NULL && errno == ENOMEM && reallocarray(NULL, huge, 4) == NULL);
    free(NULL);
    void *nothing = malloc(0);
    CHECK(nothing != NULL);
    free(nothing);
}

static void aligned(void)
{
    void *block = NULL;
    int wrong = 0;
    for (size_t alignment = 16; alignment <= 65536; alignment *= 2) {
        wrong += posix_memalign(&block, alignment, 100) != 0 || (uintptr_t)block % alignment != 0 || malloc_usable_size(block) < 100;
        memset(block, 1, 100);
        block = realloc(block, 300);
        free(block);
    }
    CHECK(wrong == 0 && posix_memalign(&block, 3, 100) == EINVAL);
    CHECK((block = aligned_alloc(64, 128)) != NULL && (uintptr_t)block % 64 == 0);
    free(block);
}

/* 180 MiB in all, of which at most 20 are live: freed memory serves again, large and small, and after small ones large ones. */
static void again(void)
{
    int wrong = 0;
    for (int turn = 0; turn < 9; ++turn) {
        char *large = malloc(20 << 20);
        wrong += large == NULL;
        if (large != NULL)
            large[0] = large[(20 << 20) - 1] = 1;
        free(large);
    }
    void **small = malloc(80000 * sizeof *small);
    for (int turn = 0; turn < 2; ++turn) {
        for (int at = 0; at < 80000; ++at)
            wrong += (small[at] = malloc(100)) == NULL;
        for (int at = 0; at < 80000; ++at)
            free(small[at]);
    }
    free(small);
    void *most = malloc(200 << 20);
    CHECK(wrong == 0 && most != NULL);
    free(most);
}

/* A block that grows by little. */
static void grows(void)
{
    char *bytes = NULL;
    int wrong = 0;
    for (size_t size = 1; size <= 300000; size += 1000) {
        bytes = realloc(bytes, size);
        bytes[size - 1] = (char)size;
        wrong += bytes[0] != 1;
    }
    CHECK(wrong == 0);
    free(bytes);
    char *old = sbrk(0);
    CHECK(sbrk(4096) == old && sbrk(0) == old + 4096);
}

static int is_moved(const unsigned char *bytes, size_t from, size_t to, size_t length)
{
    for (size_t at = 0; at < 128; ++at) {
        size_t was = at >= to && at < to + length ? at - to + from : at;
        if (bytes[at] != was)
            return 0;
    }
    return 1;
}

/* Every distance and length: moves that overlap upwards and downwards, and copies. */
static void moves(void)
{
    unsigned char bytes[128], other[128];
    int wrong = 0;
    for (size_t from = 0; from < 20; ++from) {
        for (size_t to = 0; to < 20; ++to) {
            for (size_t length = 0; length < 70; ++length) {
                for (size_t at = 0; at < sizeof bytes; ++at)
                    bytes[at] = other[at] = (unsigned char)at;
                wrong += memmove(bytes + to, bytes + from, length) != bytes + to || !is_moved(bytes, from, to, length);
                memcpy(bytes + to, other + from, length);
                wrong += !is_moved(bytes, from, to, length);
            }
        }
    }
    CHECK(wrong == 0);
}

static void fills_and_searches(void)
{
    unsigned char bytes[80], same[80];
    int wrong = 0;
    for (size_t from = 0; from < 10; ++from) {
        for (size_t length = 0; length < 60; ++length) {
            for (size_t at = 0; at < sizeof bytes; ++at)
                bytes[at] = same[at] = 7;
            memset(bytes + from, 200, length);
            for (size_t at = 0; at < sizeof bytes; ++at)
                wrong += bytes[at] != (at >= from && at < from + length ? 200 : 7);
            wrong += memchr(bytes, 200, sizeof bytes) != (length == 0 ? NULL : bytes + from);
            wrong += memchr(bytes + from, 7, length) != NULL;
            wrong += memcmp(bytes, same, from) != 0 || (length > 0 && (memcmp(bytes, same, 80) <= 0 || memcmp(same, bytes, 80) >= 0));
            wrong += memrchr(bytes, 200, 80) != (length == 0 ? NULL : bytes + from + length - 1);
        }
    }
    CHECK(wrong == 0);
}

int main(void)
{
    moves();
    fills_and_searches();
    mixed();
    zeros();
    aligned();
    again();
    grows();
    return finish();
}
