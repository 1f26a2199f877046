/* open_wmemstream: a stream that is written into wide characters, which grow. */
#define _GNU_SOURCE
#include <errno.h>
#include <stdint.h>
#include <stdio.h>
#include <stdlib.h>
#include <wchar.h>

struct wide_memory {
    wchar_t *text;
    size_t size, capacity, place; /* in characters */
    wchar_t **told_text;          /* where the program looks */
    size_t *told_size;
    mbstate_t state;
};

static void tell(const struct wide_memory *memory)
{
    *memory->told_text = memory->text;
    *memory->told_size = memory->place < memory->size ? memory->place : memory->size;
}

/* Room up to this place and for a zero. What lies between the end and the place is zeros. */
static int grow(struct wide_memory *memory, size_t place)
{
    if (place < memory->capacity)
        return 0;
    size_t capacity = place + place / 2 + 64;
    wchar_t *larger = reallocarray(memory->text, capacity, sizeof(wchar_t));
    if (larger == NULL)
        return -1;
    wmemset(larger + memory->capacity, L'\0', capacity - memory->capacity);
    memory->text = larger;
    memory->capacity = capacity;
    return 0;
}

static int put(struct wide_memory *memory, char byte)
{
    wchar_t letter;
    size_t count = mbrtowc(&letter, &byte, 1, &memory->state);
    if (count == (size_t)-2)
        return 0;
    if (count == (size_t)-1 || grow(memory, memory->place + 1) != 0)
        return -1;
    memory->text[memory->place++] = letter;
    if (memory->place > memory->size) {
        memory->size = memory->place;
        memory->text[memory->size] = L'\0';
    }
    return 0;
}

static ssize_t write_wide(void *cookie, const char *bytes, size_t size)
{
    size_t done = 0;
    while (done < size && put(cookie, bytes[done]) == 0)
        ++done;
    tell(cookie);
    return done > 0 || size == 0 ? (ssize_t)done : -1;
}

static int seek_wide(void *cookie, off_t *place, int whence)
{
    struct wide_memory *memory = cookie;
    off_t from = whence == SEEK_CUR ? (off_t)memory->place : whence == SEEK_END ? (off_t)memory->size : 0;
    if (*place < -from || *place > (off_t)(PTRDIFF_MAX / sizeof(wchar_t)) - from) {
        errno = EINVAL;
        return -1;
    }
    *place += from;
    memory->place = (size_t)*place;
    memory->state = (mbstate_t){0};
    tell(memory);
    return 0;
}

static int close_wide(void *cookie)
{
    free(cookie);
    return 0;
}

FILE *open_wmemstream(wchar_t **text, size_t *size)
{
    struct wide_memory *memory = malloc(sizeof *memory);
    if (memory == NULL)
        return NULL;
    *memory = (struct wide_memory){.told_text = text, .told_size = size};
    cookie_io_functions_t functions = {NULL, write_wide, seek_wide, close_wide};
    FILE *file = grow(memory, 0) == 0 ? fopencookie(memory, "w", functions) : NULL;
    if (file == NULL) {
        free(memory->text);
        free(memory);
        return NULL;
    }
    tell(memory);
    return file;
}
