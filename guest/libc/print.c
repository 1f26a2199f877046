/* printf and its kin: formats into streams and into memory. */
#include "stream.h"

#include <errno.h>
#include <stdlib.h>
#include <string.h>
#include <unistd.h>

/* Into a stream. */

struct stream_sink {
    struct sink sink;
    FILE *file;
    bool has_line;
};

static void put_in_stream(struct sink *sink, const char *bytes, size_t size)
{
    struct stream_sink *to = (struct stream_sink *)sink;
    if (to->file->buffering == _IOLBF && memchr(bytes, '\n', size) != NULL)
        to->has_line = true;
    if (!put_bytes(to->file, bytes, size))
        sink->has_failed = true;
}

int vfprintf(FILE *restrict file, const char *restrict format, va_list arguments)
{
    HOLD(&file->lock);
    struct stream_sink to = {{put_in_stream, 0, false}, file, false};
    if (!begin_writing(file))
        return -1;
    format_into(&to.sink, format, arguments);
    if ((file->buffering == _IONBF || to.has_line) && write_pending(file) != 0)
        return -1;
    return format_result(&to.sink);
}

/* Into memory, as much as there is room for. */

struct memory_sink {
    struct sink sink;
    char *text;
    size_t room; /* without the zero byte */
    size_t length;
};

static void put_in_memory(struct sink *sink, const char *bytes, size_t size)
{
    struct memory_sink *to = (struct memory_sink *)sink;
    if (size > to->room - to->length)
        size = to->room - to->length;
    memcpy(to->text + to->length, bytes, size);
    to->length += size;
}

int vsnprintf(char *restrict text, size_t size, const char *restrict format, va_list arguments)
{
    struct memory_sink to = {{put_in_memory, 0, false}, text, size > 0 ? size - 1 : 0, 0};
    format_into(&to.sink, format, arguments);
    if (size > 0)
        text[to.length] = '\0';
    return format_result(&to.sink);
}

int vsprintf(char *restrict text, const char *restrict format, va_list arguments)
{
    return vsnprintf(text, (size_t)PTRDIFF_MAX, format, arguments);
}

int vasprintf(char **text, const char *restrict format, va_list arguments)
{
    va_list again;
    va_copy(again, arguments);
    int length = vsnprintf(NULL, 0, format, again);
    va_end(again);
    *text = length < 0 ? NULL : malloc((size_t)length + 1);
    return *text == NULL ? -1 : vsnprintf(*text, (size_t)length + 1, format, arguments);
}

int vdprintf(int fd, const char *restrict format, va_list arguments)
{
    char *text;
    int length = vasprintf(&text, format, arguments);
    for (int done = 0; done < length;) {
        ssize_t count = write(fd, text + done, (size_t)(length - done));
        if (count < 0) {
            length = -1;
            break;
        }
        done += (int)count;
    }
    free(text);
    return length;
}

int vprintf(const char *restrict format, va_list arguments)
{
    return vfprintf(stdout, format, arguments);
}

/* Calls the function with a list in place of `...`. */
#define WITH_LIST(last, call)                                                                                                      \
    va_list arguments;                                                                                                             \
    va_start(arguments, last);                                                                                                     \
    int result = call;                                                                                                             \
    va_end(arguments);                                                                                                             \
    return result

int printf(const char *restrict format, ...)
{
    WITH_LIST(format, vfprintf(stdout, format, arguments));
}

int fprintf(FILE *restrict file, const char *restrict format, ...)
{
    WITH_LIST(format, vfprintf(file, format, arguments));
}

int sprintf(char *restrict text, const char *restrict format, ...)
{
    WITH_LIST(format, vsprintf(text, format, arguments));
}

int snprintf(char *restrict text, size_t size, const char *restrict format, ...)
{
    WITH_LIST(format, vsnprintf(text, size, format, arguments));
}

int asprintf(char **text, const char *restrict format, ...)
{
    WITH_LIST(format, vasprintf(text, format, arguments));
}

int dprintf(int fd, const char *restrict format, ...)
{
    WITH_LIST(format, vdprintf(fd, format, arguments));
}
