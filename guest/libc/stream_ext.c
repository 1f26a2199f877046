/* What is known of a stream by the names of stdio_ext.h, its lock, and the functions that needn't take it, and do all the same. */
#include "stream.h"

#include <stdio_ext.h>

size_t __fbufsize(FILE *file)
{
    return file->capacity;
}

size_t __fpending(FILE *file)
{
    return file->is_writing ? file->end : 0;
}

int __flbf(FILE *file)
{
    return file->buffering == _IOLBF;
}

int __freadable(FILE *file)
{
    return file->can_read;
}

int __fwritable(FILE *file)
{
    return file->can_write;
}

int __freading(FILE *file)
{
    return file->is_reading || !file->can_write;
}

int __fwriting(FILE *file)
{
    return file->is_writing || !file->can_read;
}

void __fpurge(FILE *file)
{
    HOLD(&file->lock);
    file->begin = file->end = file->is_reading ? UNGET_ROOM : 0;
}

/* What gnulib asks of a stream. */

void __fseterr(FILE *file)
{
    file->has_failed = true;
}

size_t __freadahead(FILE *file)
{
    return file->is_reading ? file->end - file->begin : 0;
}

const char *__freadptr(FILE *file, size_t *size)
{
    *size = __freadahead(file);
    return *size == 0 ? NULL : (const char *)file->buffer + file->begin;
}

void __freadptrinc(FILE *file, size_t size)
{
    file->begin += size;
}

int fpurge(FILE *file)
{
    __fpurge(file);
    return 0;
}

void _flushlbf(void)
{
    fflush(NULL);
}

int __fsetlocking(FILE *file, int kind)
{
    (void)file, (void)kind;
    return FSETLOCKING_BYCALLER;
}

void flockfile(FILE *file)
{
    take_lock(&file->lock);
}

int ftrylockfile(FILE *file)
{
    return try_to_take(&file->lock) ? 0 : -1;
}

void funlockfile(FILE *file)
{
    let_go(&file->lock);
}

/* Defines a function with another name as this one. */
#define SAME(type, name, same, arguments, words)                                                                                   \
    type name arguments                                                                                                            \
    {                                                                                                                              \
        return same words;                                                                                                         \
    }

SAME(int, getc_unlocked, fgetc, (FILE * file), (file))
SAME(int, getchar_unlocked, getchar, (void), ())
SAME(int, putc_unlocked, fputc, (int byte, FILE *file), (byte, file))
SAME(int, putchar_unlocked, putchar, (int byte), (byte))
SAME(int, fgetc_unlocked, fgetc, (FILE * file), (file))
SAME(int, fputc_unlocked, fputc, (int byte, FILE *file), (byte, file))
SAME(char *, fgets_unlocked, fgets, (char *restrict line, int size, FILE *restrict file), (line, size, file))
SAME(int, fputs_unlocked, fputs, (const char *restrict text, FILE *restrict file), (text, file))
SAME(size_t, fread_unlocked, fread, (void *restrict bytes, size_t size, size_t count, FILE *restrict file), (bytes, size, count, file))
SAME(size_t, fwrite_unlocked, fwrite, (const void *restrict bytes, size_t size, size_t count, FILE *restrict file), (bytes, size, count, file))
SAME(int, fflush_unlocked, fflush, (FILE * file), (file))
SAME(int, feof_unlocked, feof, (FILE * file), (file))
SAME(int, ferror_unlocked, ferror, (FILE * file), (file))
SAME(void, clearerr_unlocked, clearerr, (FILE * file), (file))
SAME(int, fileno_unlocked, fileno, (FILE * file), (file))
