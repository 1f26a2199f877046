/* Streams over memory, and over functions of the program's own. */
#define _GNU_SOURCE
#include "stream.h"

#include <errno.h>
#include <fcntl.h>
#include <stdlib.h>
#include <string.h>

/* Bytes that are read and written in their place, or grow. */
struct memory {
    char *bytes;
    size_t size;     /* how many there are */
    size_t capacity; /* for how many there is room */
    size_t place;
    bool appends, owns_bytes, grows;
    char **told_bytes; /* of open_memstream: where the program looks */
    size_t *told_size;
};

static ssize_t read_memory(void *cookie, char *bytes, size_t size)
{
    struct memory *memory = cookie;
    size_t left = memory->place < memory->size ? memory->size - memory->place : 0;
    if (size > left)
        size = left;
    memcpy(bytes, memory->bytes + memory->place, size);
    memory->place += size;
    return (ssize_t)size;
}

static int seek_memory(void *cookie, off_t *place, int whence)
{
    struct memory *memory = cookie;
    off_t from = whence == SEEK_CUR ? (off_t)memory->place : whence == SEEK_END ? (off_t)memory->size : 0;
    off_t most = memory->grows ? PTRDIFF_MAX : (off_t)memory->capacity;
    if (whence < SEEK_SET || whence > SEEK_END || *place < -from || *place > most - from) {
        errno = EINVAL;
        return -1;
    }
    *place += from;
    memory->place = (size_t)*place;
    return 0;
}

static ssize_t write_memory(void *cookie, const char *bytes, size_t size)
{
    struct memory *memory = cookie;
    if (memory->appends)
        memory->place = memory->size;
    size_t room = memory->capacity - memory->place;
    if (size > room)
        size = room;
    if (size == 0) {
        errno = ENOSPC;
        return -1;
    }
    memcpy(memory->bytes + memory->place, bytes, size);
    memory->place += size;
    if (memory->place > memory->size)
        memory->size = memory->place;
    if (memory->size < memory->capacity)
        memory->bytes[memory->size] = '\0';
    return (ssize_t)size;
}

static int close_memory(void *cookie)
{
    struct memory *memory = cookie;
    if (memory->owns_bytes)
        free(memory->bytes);
    free(memory);
    return 0;
}

static const struct stream_source memory_source = {read_memory, write_memory, seek_memory, close_memory};

FILE *fmemopen(void *restrict bytes, size_t size, const char *restrict mode)
{
    int flags = flags_of_mode(mode);
    struct memory *memory = flags < 0 ? NULL : calloc(1, sizeof *memory);
    if (memory == NULL)
        return NULL;
    *memory = (struct memory){.bytes = bytes, .capacity = size, .appends = (flags & O_APPEND) != 0, .owns_bytes = bytes == NULL};
    if (bytes == NULL)
        memory->bytes = calloc(1, size + 1);
    FILE *file = memory->bytes == NULL ? NULL : new_stream(&memory_source, memory, flags);
    if (file == NULL) {
        close_memory(memory);
        return NULL;
    }
    if (bytes != NULL && *mode == 'r')
        memory->size = size;
    if (bytes != NULL && *mode == 'a')
        memory->size = memory->place = strnlen(bytes, size);
    if (bytes != NULL && *mode == 'w' && size > 0)
        memory->bytes[0] = '\0';
    return file;
}

/* Room up to this place and for a zero byte. What lies between the end and the place is zeros. */
static bool grow(struct memory *memory, size_t place)
{
    if (place < memory->capacity)
        return true;
    size_t capacity = place + place / 2 + 64;
    char *larger = realloc(memory->bytes, capacity);
    if (larger == NULL)
        return false;
    memset(larger + memory->capacity, 0, capacity - memory->capacity);
    memory->bytes = larger;
    memory->capacity = capacity;
    return true;
}

static void tell(struct memory *memory)
{
    if (memory->told_bytes == NULL)
        return;
    *memory->told_bytes = memory->bytes;
    *memory->told_size = memory->place < memory->size ? memory->place : memory->size;
}

static ssize_t write_growing(void *cookie, const char *bytes, size_t size)
{
    struct memory *memory = cookie;
    if (!grow(memory, memory->place + size))
        return -1;
    memcpy(memory->bytes + memory->place, bytes, size);
    memory->place += size;
    if (memory->place > memory->size) {
        memory->size = memory->place;
        memory->bytes[memory->size] = '\0';
    }
    tell(memory);
    return (ssize_t)size;
}

static const struct stream_source growing_source = {read_memory, write_growing, seek_memory, close_memory};

static FILE *open_growing(struct memory start, int flags)
{
    struct memory *memory = malloc(sizeof *memory);
    if (memory == NULL)
        return NULL;
    *memory = start;
    memory->grows = true;
    FILE *file = grow(memory, 0) ? new_stream(&growing_source, memory, flags) : NULL;
    if (file == NULL) {
        free(memory->bytes);
        free(memory);
        return NULL;
    }
    tell(memory);
    return file;
}

FILE *open_memstream(char **bytes, size_t *size)
{
    return open_growing((struct memory){.told_bytes = bytes, .told_size = size}, O_WRONLY);
}

FILE *stream_in_memory(void)
{
    return open_growing((struct memory){.owns_bytes = true}, O_RDWR);
}

/* Streams over functions of the program's own. */

struct own {
    void *cookie;
    cookie_io_functions_t functions;
};

static ssize_t read_own(void *cookie, char *bytes, size_t size)
{
    struct own *own = cookie;
    return own->functions.read == NULL ? 0 : own->functions.read(own->cookie, bytes, size);
}

static ssize_t write_own(void *cookie, const char *bytes, size_t size)
{
    struct own *own = cookie;
    return own->functions.write == NULL ? (ssize_t)size : own->functions.write(own->cookie, bytes, size);
}

static int seek_own(void *cookie, off_t *place, int whence)
{
    struct own *own = cookie;
    if (own->functions.seek != NULL)
        return own->functions.seek(own->cookie, place, whence);
    errno = ESPIPE;
    return -1;
}

static int close_own(void *cookie)
{
    struct own *own = cookie;
    int failed = own->functions.close == NULL ? 0 : own->functions.close(own->cookie);
    free(own);
    return failed;
}

static const struct stream_source own_source = {read_own, write_own, seek_own, close_own};

FILE *fopencookie(void *cookie, const char *mode, cookie_io_functions_t functions)
{
    int flags = flags_of_mode(mode);
    struct own *own = flags < 0 ? NULL : malloc(sizeof *own);
    if (own == NULL)
        return NULL;
    *own = (struct own){cookie, functions};
    FILE *file = new_stream(&own_source, own, flags);
    if (file == NULL)
        free(own);
    return file;
}
