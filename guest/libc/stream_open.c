/* Opening and closing of streams, the standard streams, and what is written at the exit. */
#include "stream.h"

#include <errno.h>
#include <fcntl.h>
#include <stdlib.h>
#include <string.h>
#include <unistd.h>

static unsigned char input_bytes[UNGET_ROOM + BUFSIZ], output_bytes[UNGET_ROOM + BUFSIZ], error_bytes[UNGET_ROOM + BUFSIZ];
static struct __file input, output, errors;

#define STREAM(number, bytes, way, kind, behind)                                                                                   \
    {                                                                                                                              \
        .source = &file_source, .buffer = bytes, .capacity = BUFSIZ, .fd = number, .way = true, .buffering = kind,                   \
        .cookie = behind##_cookie, .next = behind##_next,                                                                          \
    }
#define input_cookie &input
#define input_next &output
#define output_cookie &output
#define output_next &errors
#define errors_cookie &errors
#define errors_next NULL

static struct __file input = STREAM(0, input_bytes, can_read, _IOFBF, input);
static struct __file output = STREAM(1, output_bytes, can_write, _IOLBF, output);
static struct __file errors = STREAM(2, error_bytes, can_write, _IONBF, errors);

FILE *stdin = &input, *stdout = &output, *stderr = &errors;

static FILE *all_streams = &input;

int flags_of_mode(const char *mode)
{
    int flags = *mode == 'r' ? O_RDONLY : *mode == 'w' ? O_WRONLY | O_CREAT | O_TRUNC : *mode == 'a' ? O_WRONLY | O_CREAT | O_APPEND : -1;
    if (flags == -1) {
        errno = EINVAL;
        return -1;
    }
    while (*++mode != '\0' && *mode != ',') {
        if (*mode == '+')
            flags = (flags & ~O_ACCMODE) | O_RDWR;
        if (*mode == 'x')
            flags |= O_EXCL;
        if (*mode == 'e')
            flags |= O_CLOEXEC;
    }
    return flags;
}

static void take_flags(FILE *file, int flags)
{
    file->can_read = (flags & O_ACCMODE) != O_WRONLY;
    file->can_write = (flags & O_ACCMODE) != O_RDONLY;
    file->appends = (flags & O_APPEND) != 0;
}

FILE *new_stream(const struct stream_source *source, void *cookie, int flags)
{
    FILE *file = calloc(1, sizeof *file);
    if (file == NULL)
        return NULL;
    file->source = source;
    file->cookie = cookie;
    file->fd = -1;
    file->is_allocated = true;
    take_flags(file, flags);
    HOLD(&streams_lock);
    file->next = all_streams;
    all_streams = file;
    return file;
}

static FILE *stream_of_descriptor(int fd, int flags)
{
    FILE *file = new_stream(&file_source, NULL, flags);
    if (file == NULL)
        return NULL;
    file->cookie = file;
    file->fd = fd;
    return file;
}

FILE *fdopen(int fd, const char *mode)
{
    int flags = flags_of_mode(mode);
    int now = flags < 0 ? -1 : fcntl(fd, F_GETFL);
    if (now < 0)
        return NULL;
    if ((now & O_ACCMODE) != O_RDWR && (now & O_ACCMODE) != (flags & O_ACCMODE)) {
        errno = EINVAL;
        return NULL;
    }
    if ((flags & O_APPEND) && !(now & O_APPEND))
        fcntl(fd, F_SETFL, now | O_APPEND);
    return stream_of_descriptor(fd, flags);
}

FILE *fopen(const char *restrict path, const char *restrict mode)
{
    int flags = flags_of_mode(mode);
    int fd = flags < 0 ? -1 : open(path, flags, 0666);
    if (fd < 0)
        return NULL;
    FILE *file = stream_of_descriptor(fd, flags);
    if (file == NULL)
        close(fd);
    return file;
}

/* Ends what the stream is of; the stream itself stays. What was read ahead isn't given back: that would set the offset back, which needs
   a right of its own. */
static int end_stream(FILE *file)
{
    int failed = file->is_writing ? write_pending(file) : 0;
    if (file->source->close != NULL && file->source->close(file->cookie) != 0)
        failed = EOF;
    if (file->owns_buffer)
        free(file->buffer);
    return failed;
}

static void take_off_list(const FILE *file)
{
    HOLD(&streams_lock);
    FILE **place = &all_streams;
    while (*place != NULL && *place != file)
        place = &(*place)->next;
    if (*place != NULL)
        *place = file->next;
}

static int end_alone(FILE *file)
{
    HOLD(&file->lock);
    return end_stream(file);
}

int fclose(FILE *file)
{
    take_off_list(file);
    int failed = end_alone(file);
    if (file->is_allocated)
        free(file);
    return failed;
}

/* The flags of the descriptor that a stream has, which `freopen` without a path keeps. */
static int reopened(FILE *file, const char *path, int flags)
{
    if (path != NULL)
        return open(path, flags, 0666);
    if (file->fd < 0 || ((flags & O_TRUNC) && ftruncate(file->fd, 0) != 0))
        return -1;
    return dup(file->fd);
}

FILE *freopen(const char *restrict path, const char *restrict mode, FILE *restrict file)
{
    int flags = flags_of_mode(mode);
    int number = file->fd;
    if (file->is_writing)
        write_pending(file);
    int fd = flags < 0 ? -1 : reopened(file, path, flags);
    if (fd < 0) {
        int error = errno;
        fclose(file);
        errno = error;
        return NULL;
    }
    end_stream(file);
    if (number >= 0 && number != fd && dup2(fd, number) == number) {
        close(fd);
        fd = number;
    }
    struct __file fresh = {.source = &file_source, .cookie = file, .fd = fd, .buffering = file->buffering,
                           .is_allocated = file->is_allocated, .lock = file->lock, .next = file->next};
    *file = fresh;
    take_flags(file, flags);
    return file;
}

/* What was read ahead goes back to the file; what has no place, such as standard input, keeps it. */
static int give_back(FILE *file)
{
    int error = errno;
    if (drop_unread(file) == 0)
        return 0;
    if (errno != ESPIPE)
        return EOF;
    errno = error;
    return 0;
}

static int flush(FILE *file)
{
    HOLD(&file->lock);
    return file->is_writing ? write_pending(file) : give_back(file);
}

/* A stream that reads isn't waited for. */
int fflush(FILE *file)
{
    int failed = 0;
    if (file != NULL)
        return flush(file);
    HOLD(&streams_lock);
    for (file = all_streams; file != NULL; file = file->next) {
        if (file->is_writing && flush(file) != 0)
            failed = EOF;
    }
    return failed;
}

int fcloseall(void)
{
    return fflush(NULL);
}

/* At the exit, which no thread holds up. */
__attribute__((destructor)) static void flush_all(void)
{
    for (FILE *file = all_streams; file != NULL; file = file->next) {
        if (file->is_writing)
            write_pending(file);
    }
}

/* The locks of a child are free, whatever threads of its parent had. */
void free_streams(void)
{
    for (FILE *file = all_streams; file != NULL; file = file->next)
        file->lock = (struct library_lock){0};
}

int setvbuf(FILE *restrict file, char *restrict buffer, int mode, size_t size)
{
    (void)buffer, (void)size;
    if (mode != _IOFBF && mode != _IOLBF && mode != _IONBF) {
        errno = EINVAL;
        return -1;
    }
    file->buffering = (uint8_t)mode;
    return 0;
}

void setbuf(FILE *restrict file, char *restrict buffer)
{
    setvbuf(file, NULL, buffer == NULL ? _IONBF : _IOFBF, BUFSIZ);
}

void setbuffer(FILE *file, char *buffer, size_t size)
{
    (void)size;
    setbuf(file, buffer);
}

void setlinebuf(FILE *file)
{
    setvbuf(file, NULL, _IOLBF, 0);
}
