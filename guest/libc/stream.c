/* Buffers of streams: filling, writing, and the change from the one to the other. */
#include "stream.h"

#include <errno.h>
#include <stdlib.h>
#include <string.h>
#include <unistd.h>

static ssize_t read_file(void *cookie, char *bytes, size_t size)
{
    return read(((FILE *)cookie)->fd, bytes, size);
}

static ssize_t write_file(void *cookie, const char *bytes, size_t size)
{
    return write(((FILE *)cookie)->fd, bytes, size);
}

static int seek_file(void *cookie, off_t *place, int whence)
{
    off_t found = lseek(((FILE *)cookie)->fd, *place, whence);
    if (found < 0)
        return -1;
    *place = found;
    return 0;
}

static int close_file(void *cookie)
{
    return close(((FILE *)cookie)->fd);
}

const struct stream_source file_source = {read_file, write_file, seek_file, close_file};

static bool refuse(FILE *file, int error)
{
    errno = error;
    file->has_failed = true;
    return false;
}

static bool has_buffer(FILE *file)
{
    if (file->buffer != NULL)
        return true;
    file->buffer = malloc(UNGET_ROOM + BUFSIZ);
    if (file->buffer == NULL)
        return refuse(file, ENOMEM);
    file->capacity = BUFSIZ;
    file->owns_buffer = true;
    return true;
}

int drop_unread(FILE *file)
{
    off_t back = -(off_t)(file->end - file->begin);
    if (!file->is_reading)
        return 0;
    if (back != 0 && file->source->seek == NULL)
        errno = ESPIPE;
    if (back != 0 && (file->source->seek == NULL || file->source->seek(file->cookie, &back, SEEK_CUR) != 0))
        return EOF;
    file->is_reading = false;
    file->begin = file->end = 0;
    return 0;
}

int write_pending(FILE *file)
{
    size_t done = 0;
    while (done < file->end) {
        ssize_t count = file->source->write == NULL ? -1
                      : file->source->write(file->cookie, (char *)file->buffer + done, file->end - done);
        if (count <= 0) {
            file->has_failed = true;
            file->end = 0;
            return EOF;
        }
        done += (size_t)count;
    }
    file->end = 0;
    return 0;
}

bool begin_reading(FILE *file)
{
    if (file->is_reading)
        return true;
    if (!file->can_read)
        return refuse(file, EBADF);
    if (file->is_writing && write_pending(file) != 0)
        return false;
    if (!has_buffer(file))
        return false;
    file->is_writing = false;
    file->is_reading = true;
    file->begin = file->end = UNGET_ROOM;
    return true;
}

bool begin_writing(FILE *file)
{
    if (file->is_writing)
        return true;
    if (!file->can_write)
        return refuse(file, EBADF);
    if (!has_buffer(file))
        return false;
    drop_unread(file);
    file->is_reading = false;
    file->is_writing = true;
    file->begin = file->end = 0;
    return true;
}

bool fill(FILE *file)
{
    if (file->is_at_end)
        return false;
    file->begin = file->end = UNGET_ROOM;
    ssize_t count = file->source->read == NULL ? 0 : file->source->read(file->cookie, (char *)file->buffer + UNGET_ROOM, file->capacity);
    if (count < 0)
        file->has_failed = true;
    else if (count == 0)
        file->is_at_end = true;
    else
        file->end += (size_t)count;
    return count > 0;
}

/* Bytes that fill the buffer more than once are written from where they stand. */
bool put_bytes(FILE *file, const char *bytes, size_t size)
{
    while (size > 0) {
        size_t room = file->capacity - file->end;
        if (file->end == 0 && size >= file->capacity && file->source->write != NULL) {
            ssize_t count = file->source->write(file->cookie, bytes, size);
            if (count <= 0) {
                file->has_failed = true;
                return false;
            }
            bytes += count;
            size -= (size_t)count;
            continue;
        }
        if (room > size)
            room = size;
        memcpy(file->buffer + file->end, bytes, room);
        file->end += room;
        bytes += room;
        size -= room;
        if (file->end == file->capacity && write_pending(file) != 0)
            return false;
    }
    return true;
}

int settle(FILE *file, const char *bytes, size_t size)
{
    if (file->buffering == _IONBF || (file->buffering == _IOLBF && memchr(bytes, '\n', size) != NULL))
        return write_pending(file);
    return 0;
}
