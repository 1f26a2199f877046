/*
 * malloc. A small object is one of a run of equal ones, a span of 64 KiB at a multiple of 64 KiB, so that an address says where its
 * span is. A span that has no object left serves another size. A large block is a mapping of its own, and goes back when it is freed.
 *
 * Spans stand from SPANS on, above every program and below where mem_map looks for room; large blocks stand above that.
 */
#define _GNU_SOURCE
#include "library_lock.h"
#include "system.h"

#include <errno.h>
#include <malloc.h>
#include <stdlib.h>
#include <string.h>

#define SPANS UINT64_C(0x1000000000)
#define SPAN_SIZE 65536
#define MOST_SPANS 4096 /* as many as a process has pages for */
#define LARGEST_SMALL 16320
#define ALIGNMENT 16
#define KEPT_SPANS 16 /* that stay mapped though they have no object */

/* At the beginning of a span. Its objects are used for the first time in order, and then by a list of those that were freed. */
struct span {
    struct span *next, *previous; /* those of the same size that have room */
    void *freed;
    uint32_t size;  /* of an object */
    uint32_t index; /* of the size */
    uint32_t live, fresh, most;
    bool has_room; /* whether it is in the list */
};

#define SPAN_HEADER 64

/* Before a large block. */
struct large {
    void *mapping;
    size_t length; /* of the mapping */
};

#define SIZES 44

static struct span *with_room[SIZES];
static struct span *empty_spans; /* mapped, linked by `next` */
static unsigned empty_count;
static uint16_t unmapped[MOST_SPANS]; /* numbers of spans whose pages went back */
static unsigned unmapped_count, span_count;

/* Sizes: multiples of 16 up to 128, and then four between a power of two and the next. */

static unsigned index_of_size(size_t size)
{
    if (size <= 128)
        return size == 0 ? 0 : (unsigned)(size - 1) / 16;
    unsigned power = 63 - (unsigned)__builtin_clzll(size - 1);
    return (power - 7) * 4 + 8 + (unsigned)((size - 1) >> (power - 2) & 3);
}

static size_t size_of_index(unsigned index)
{
    if (index < 8)
        return (index + 1) * 16;
    unsigned power = (index - 8) / 4 + 7;
    size_t size = ((size_t)1 << power) + (((size_t)(index - 8) % 4 + 1) << (power - 2));
    return size > LARGEST_SMALL ? LARGEST_SMALL : size;
}

/* Spans. */

static bool map_pages(void *address, size_t length, uint32_t flags, void **memory)
{
    return cloudabi_sys_mem_map(address, length, CLOUDABI_PROT_READ | CLOUDABI_PROT_WRITE, CLOUDABI_MAP_ANON | CLOUDABI_MAP_PRIVATE | flags,
                                0, 0, memory) == CLOUDABI_ESUCCESS;
}

static unsigned number_of(const struct span *span)
{
    return (unsigned)(((uintptr_t)span - SPANS) / SPAN_SIZE);
}

static struct span *new_span(void)
{
    void *memory;
    if (empty_spans != NULL) {
        struct span *span = empty_spans;
        empty_spans = span->next;
        --empty_count;
        return span;
    }
    bool is_again = unmapped_count > 0;
    if (!is_again && span_count == MOST_SPANS)
        return NULL;
    unsigned number = is_again ? unmapped[unmapped_count - 1] : span_count;
    if (!map_pages((void *)(SPANS + (uint64_t)number * SPAN_SIZE), SPAN_SIZE, CLOUDABI_MAP_FIXED, &memory))
        return NULL;
    if (is_again)
        --unmapped_count;
    else
        ++span_count;
    return memory;
}

static void unmap_span(struct span *span)
{
    unsigned number = number_of(span);
    if (cloudabi_sys_mem_unmap(span, SPAN_SIZE) == CLOUDABI_ESUCCESS)
        unmapped[unmapped_count++] = (uint16_t)number;
}

/* Gives the pages of all spans without an object back; false where there was none. */
static bool unmap_empty(void)
{
    bool is_any = empty_spans != NULL;
    while (empty_spans != NULL) {
        struct span *span = empty_spans;
        empty_spans = span->next;
        unmap_span(span);
    }
    empty_count = 0;
    return is_any;
}

static void put_in_list(struct span *span)
{
    struct span **first = &with_room[span->index];
    span->previous = NULL;
    span->next = *first;
    if (*first != NULL)
        (*first)->previous = span;
    *first = span;
    span->has_room = true;
}

static void take_out_of_list(struct span *span)
{
    if (span->previous != NULL)
        span->previous->next = span->next;
    else
        with_room[span->index] = span->next;
    if (span->next != NULL)
        span->next->previous = span->previous;
    span->has_room = false;
}

/* Small objects. */

static void *take_object(struct span *span)
{
    void *object = span->freed;
    if (object != NULL)
        span->freed = *(void **)object;
    else
        object = (char *)span + SPAN_HEADER + (size_t)span->fresh++ * span->size;
    ++span->live;
    if (span->live == span->most)
        take_out_of_list(span);
    return object;
}

static void *allocate_small(size_t size)
{
    unsigned index = index_of_size(size);
    struct span *span = with_room[index];
    if (span == NULL) {
        span = new_span();
        if (span == NULL)
            return NULL;
        uint32_t each = (uint32_t)size_of_index(index);
        *span = (struct span){.size = each, .index = index, .most = (SPAN_SIZE - SPAN_HEADER) / each};
        put_in_list(span);
    }
    return take_object(span);
}

static struct span *span_of(const void *object)
{
    return (struct span *)((uintptr_t)object & ~(uintptr_t)(SPAN_SIZE - 1));
}

/* Where the object begins in which an address lies. */
static char *object_at(struct span *span, void *address)
{
    char *first = (char *)span + SPAN_HEADER;
    return first + (uint32_t)((char *)address - first) / span->size * span->size;
}

static void free_small(void *address)
{
    struct span *span = span_of(address);
    void **object = (void **)(void *)object_at(span, address);
    *object = span->freed;
    span->freed = object;
    --span->live;
    if (!span->has_room)
        put_in_list(span);
    if (span->live > 0 || (span->next == NULL && span->previous == NULL))
        return; /* the last of a size stays, so that one object doesn't make and end it again and again */
    take_out_of_list(span);
    if (empty_count == KEPT_SPANS) {
        unmap_span(span);
        return;
    }
    span->next = empty_spans;
    empty_spans = span;
    ++empty_count;
}

/* Large blocks. */

static bool is_small(const void *address)
{
    return (uintptr_t)address < SPANS + (uint64_t)MOST_SPANS * SPAN_SIZE;
}

static struct large *header_of(void *address)
{
    return (struct large *)address - 1;
}

static void *allocate_large(size_t size, size_t alignment)
{
    void *mapping;
    size_t length = size + sizeof(struct large) + (alignment > ALIGNMENT ? alignment : 0);
    length = (length + PAGE - 1) & ~(size_t)(PAGE - 1);
    if (!map_pages(NULL, length, 0, &mapping) && !(unmap_empty() && map_pages(NULL, length, 0, &mapping)))
        return NULL;
    uintptr_t address = ((uintptr_t)mapping + sizeof(struct large) + alignment - 1) & ~(uintptr_t)(alignment - 1);
    *header_of((void *)address) = (struct large){mapping, length};
    return (void *)address;
}

static void *allocate(size_t size, size_t alignment)
{
    HOLD(&allocation_lock);
    void *found = NULL;
    if (size <= PTRDIFF_MAX - PAGE - alignment) {
        if (size <= LARGEST_SMALL && alignment <= ALIGNMENT)
            found = allocate_small(size);
        else if (size + alignment <= LARGEST_SMALL)
            found = allocate_small(size + alignment);
        else
            found = allocate_large(size, alignment);
    }
    if (found == NULL)
        errno = ENOMEM;
    return (void *)(((uintptr_t)found + alignment - 1) & ~(uintptr_t)(alignment - 1));
}

/* The functions of C. */

void *malloc(size_t size)
{
    return allocate(size, ALIGNMENT);
}

void free(void *address)
{
    if (address == NULL)
        return;
    if (is_small(address)) {
        HOLD(&allocation_lock);
        free_small(address);
    } else {
        int error = errno;
        struct large *header = header_of(address);
        cloudabi_sys_mem_unmap(header->mapping, header->length);
        errno = error;
    }
}

size_t malloc_usable_size(void *address)
{
    if (address == NULL)
        return 0;
    if (is_small(address)) {
        struct span *span = span_of(address);
        return span->size - (size_t)((char *)address - object_at(span, address));
    }
    struct large *header = header_of(address);
    return header->length - (size_t)((char *)address - (char *)header->mapping);
}

/* The pages of a new mapping are zeros. */
void *calloc(size_t count, size_t size)
{
    size_t all;
    if (__builtin_mul_overflow(count, size, &all)) {
        errno = ENOMEM;
        return NULL;
    }
    void *found = malloc(all);
    if (found != NULL && is_small(found))
        memset(found, 0, all);
    return found;
}

/* A large block that grows gets an eighth more than is asked, so that growing by little costs little. */
void *realloc(void *address, size_t size)
{
    if (address == NULL)
        return malloc(size);
    size_t room = malloc_usable_size(address);
    if (size <= room && size + size / 2 + 64 >= room)
        return address;
    size_t wanted = size > room && size > LARGEST_SMALL && size < PTRDIFF_MAX / 2 ? size + size / 8 : size;
    void *moved = malloc(wanted);
    if (moved == NULL && wanted > size)
        moved = malloc(size);
    if (moved == NULL)
        return size <= room ? address : NULL;
    memcpy(moved, address, size < room ? size : room);
    free(address);
    return moved;
}

void *reallocarray(void *address, size_t count, size_t size)
{
    size_t all;
    if (!__builtin_mul_overflow(count, size, &all))
        return realloc(address, all);
    errno = ENOMEM;
    return NULL;
}

void *reallocf(void *address, size_t size)
{
    void *moved = realloc(address, size);
    if (moved == NULL)
        free(address);
    return moved;
}

/* Blocks at multiples of a power of two. */

static bool is_alignment(size_t alignment)
{
    return alignment > 0 && (alignment & (alignment - 1)) == 0 && alignment <= (size_t)1 << 30;
}

void *memalign(size_t alignment, size_t size)
{
    if (!is_alignment(alignment)) {
        errno = EINVAL;
        return NULL;
    }
    return allocate(size, alignment < ALIGNMENT ? ALIGNMENT : alignment);
}

void *aligned_alloc(size_t alignment, size_t size)
{
    return memalign(alignment, size);
}

int posix_memalign(void **to, size_t alignment, size_t size)
{
    int error = errno;
    if (!is_alignment(alignment) || alignment < sizeof(void *))
        return EINVAL;
    void *found = memalign(alignment, size);
    errno = error;
    if (found == NULL)
        return ENOMEM;
    *to = found;
    return 0;
}

void *valloc(size_t size)
{
    return memalign(PAGE, size);
}

void *pvalloc(size_t size)
{
    return memalign(PAGE, (size + PAGE - 1) & ~(size_t)(PAGE - 1));
}

void cfree(void *address)
{
    free(address);
}
