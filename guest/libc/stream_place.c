/* Where a stream is, and what happened to it. */
#include "stream.h"

#include <errno.h>
#include <limits.h>
#include <string.h>
#include <unistd.h>

int fseeko(FILE *file, off_t offset, int whence)
{
    HOLD(&file->lock);
    if (file->source->seek == NULL) {
        errno = ESPIPE;
        return -1;
    }
    if (file->is_writing && write_pending(file) != 0)
        return -1;
    if (file->is_reading && whence == SEEK_CUR)
        offset -= (off_t)(file->end - file->begin);
    if (file->source->seek(file->cookie, &offset, whence) != 0)
        return -1;
    file->is_reading = file->is_writing = false;
    file->begin = file->end = 0;
    file->is_at_end = false;
    return 0;
}

/* A stream that appends is at the file's end, before its first write too. */
off_t ftello(FILE *file)
{
    HOLD(&file->lock);
    off_t place = 0;
    if (file->source->seek == NULL) {
        errno = ESPIPE;
        return -1;
    }
    if (file->appends && file->is_writing && write_pending(file) != 0)
        return -1;
    bool is_fresh = file->appends && !file->is_reading && !file->is_writing;
    if (file->source->seek(file->cookie, &place, is_fresh ? SEEK_END : SEEK_CUR) != 0)
        return -1;
    return file->is_reading ? place - (off_t)(file->end - file->begin) : place + (off_t)file->end;
}

int fseek(FILE *file, long offset, int whence)
{
    return fseeko(file, offset, whence);
}

long ftell(FILE *file)
{
    return ftello(file);
}

void rewind(FILE *file)
{
    HOLD(&file->lock);
    fseeko(file, 0, SEEK_SET);
    clearerr(file);
}

int fgetpos(FILE *restrict file, fpos_t *restrict place)
{
    *place = ftello(file);
    return *place < 0 ? -1 : 0;
}

int fsetpos(FILE *file, const fpos_t *place)
{
    return fseeko(file, *place, SEEK_SET);
}

void clearerr(FILE *file)
{
    HOLD(&file->lock);
    file->is_at_end = file->has_failed = false;
}

int feof(FILE *file)
{
    return file->is_at_end;
}

int ferror(FILE *file)
{
    return file->has_failed;
}

int fileno(FILE *file)
{
    if (file->fd < 0)
        errno = EBADF;
    return file->fd;
}

void perror(const char *text)
{
    const char *message = strerror(errno);
    if (text != NULL && *text != '\0')
        fprintf(stderr, "%s: %s\n", text, message);
    else
        fprintf(stderr, "%s\n", message);
}
