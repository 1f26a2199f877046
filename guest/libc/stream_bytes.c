/* Reading and writing of bytes and blocks. */
#include "stream.h"

#include <limits.h>
#include <stdlib.h>
#include <string.h>

int fgetc(FILE *file)
{
    HOLD(&file->lock);
    if (!file->is_reading && !begin_reading(file))
        return EOF;
    if (file->begin == file->end && !fill(file))
        return EOF;
    return file->buffer[file->begin++];
}

int ungetc(int byte, FILE *file)
{
    HOLD(&file->lock);
    if (byte == EOF || !begin_reading(file) || file->begin == 0)
        return EOF;
    --file->begin;
    if (file->buffer[file->begin] != (unsigned char)byte) /* the bytes of sscanf may be constants */
        file->buffer[file->begin] = (unsigned char)byte;
    file->is_at_end = false;
    return (unsigned char)byte;
}

/* Large reads from an empty buffer go where they are wanted. */
static size_t read_some(FILE *file, char *bytes, size_t size)
{
    if (file->begin == file->end && size >= file->capacity && file->source->read != NULL && !file->is_at_end) {
        ssize_t count = file->source->read(file->cookie, bytes, size);
        file->is_at_end = count == 0;
        file->has_failed |= count < 0;
        return count < 0 ? 0 : (size_t)count;
    }
    if (file->begin == file->end && !fill(file))
        return 0;
    size_t count = file->end - file->begin;
    if (count > size)
        count = size;
    memcpy(bytes, file->buffer + file->begin, count);
    file->begin += count;
    return count;
}

size_t fread(void *restrict bytes, size_t size, size_t count, FILE *restrict file)
{
    HOLD(&file->lock);
    size_t wanted, done = 0;
    if (__builtin_mul_overflow(size, count, &wanted) || wanted == 0 || !begin_reading(file))
        return 0;
    while (done < wanted) {
        size_t some = read_some(file, (char *)bytes + done, wanted - done);
        if (some == 0)
            break;
        done += some;
    }
    return done / size;
}

int fputc(int byte, FILE *file)
{
    HOLD(&file->lock);
    char it = (char)byte;
    if (file->is_writing && file->buffering == _IOFBF && file->end + 1 < file->capacity) {
        file->buffer[file->end++] = (unsigned char)byte;
        return (unsigned char)byte;
    }
    if (!begin_writing(file) || !put_bytes(file, &it, 1) || settle(file, &it, 1) != 0)
        return EOF;
    return (unsigned char)byte;
}

size_t fwrite(const void *restrict bytes, size_t size, size_t count, FILE *restrict file)
{
    HOLD(&file->lock);
    size_t all;
    if (__builtin_mul_overflow(size, count, &all) || all == 0 || !begin_writing(file))
        return 0;
    return put_bytes(file, bytes, all) && settle(file, bytes, all) == 0 ? count : 0;
}

int fputs(const char *restrict text, FILE *restrict file)
{
    HOLD(&file->lock);
    size_t length = strlen(text);
    if (length == 0)
        return begin_writing(file) ? 0 : EOF;
    return fwrite(text, 1, length, file) == length ? 0 : EOF;
}

int puts(const char *text)
{
    HOLD(&stdout->lock);
    size_t length = strlen(text);
    if (!begin_writing(stdout) || !put_bytes(stdout, text, length) || !put_bytes(stdout, "\n", 1))
        return EOF;
    return settle(stdout, "\n", 1) == 0 ? 0 : EOF;
}

int getw(FILE *file)
{
    int word;
    return fread(&word, sizeof word, 1, file) == 1 ? word : EOF;
}

int putw(int word, FILE *file)
{
    return fwrite(&word, sizeof word, 1, file) == 1 ? 0 : EOF;
}

int getc(FILE *file)
{
    return fgetc(file);
}

int getchar(void)
{
    return fgetc(stdin);
}

int putc(int byte, FILE *file)
{
    return fputc(byte, file);
}

int putchar(int byte)
{
    return fputc(byte, stdout);
}
