/*
 * A stream: bytes that are buffered before they are written, or behind what was read. A stream is reading, writing, or neither; the
 * buffer is only the one or the other's. What is behind it are four functions of a cookie, which is a file descriptor's number for files.
 */
#ifndef STREAM_H
#define STREAM_H

#include "library_lock.h"

#include <stdio.h>
#include <sys/types.h>

#define UNGET_ROOM 16 /* bytes before those that are read, for ungetc */

/* What a stream reads and writes. Any may be NULL. */
struct stream_source {
    ssize_t (*read)(void *cookie, char *bytes, size_t size);
    ssize_t (*write)(void *cookie, const char *bytes, size_t size);
    int (*seek)(void *cookie, off_t *place, int whence);
    int (*close)(void *cookie);
};

struct __file {
    const struct stream_source *source;
    void *cookie;
    unsigned char *buffer; /* UNGET_ROOM and `capacity` bytes; NULL before the first use */
    size_t capacity;
    size_t begin, end; /* reading: what is unread; writing: what is unwritten, from 0 on */
    int fd;            /* -1 where it is no file's */
    uint8_t buffering; /* _IOFBF, _IOLBF, _IONBF */
    bool can_read, can_write, appends;
    bool is_reading, is_writing;
    bool is_at_end, has_failed;
    bool owns_buffer, is_allocated;
    struct library_lock lock;
    struct __file *next;
};

/* The flags of `open` for a mode of `fopen`, or -1 with errno EINVAL. */
int flags_of_mode(const char *mode);

/* A new stream in the list of those that are open, or NULL. */
FILE *new_stream(const struct stream_source *source, void *cookie, int flags);

/* A stream that is read and written in memory, and has no file. */
FILE *stream_in_memory(void);

/* The source of file descriptors, whose cookie is the stream itself. */
extern const struct stream_source file_source;

/* Makes a stream ready to read or to write; false, with the error set, where it can't. */
bool begin_reading(FILE *file);
bool begin_writing(FILE *file);

/* Reads more into an empty buffer: false at the end and where reading fails. */
bool fill(FILE *file);

/* Writes what is unwritten: 0, or EOF. */
int write_pending(FILE *file);

/* Puts bytes into a stream that is ready to write, without regard to lines: false where writing fails. */
bool put_bytes(FILE *file, const char *bytes, size_t size);

/* Writes what the stream's buffering doesn't keep back, where the last bytes that were put are these. */
int settle(FILE *file, const char *bytes, size_t size);

/* Gives up what was read ahead: the source's place is where the stream's was. Where it has none that is kept: EOF, with errno. */
int drop_unread(FILE *file);

/* A number of bytes that a format makes, which go to a stream or into memory. */
struct sink {
    void (*put)(struct sink *sink, const char *bytes, size_t size);
    uint64_t count;
    bool has_failed;
};

/* Formats into a sink. */
void format_into(struct sink *sink, const char *format, va_list arguments);

/* The result of printf: how many bytes, or -1 with errno. */
int format_result(const struct sink *sink);

#endif
