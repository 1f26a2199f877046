/* Reading of lines. The last one needs no line feed. */
#include "stream.h"

#include <errno.h>
#include <stdint.h>
#include <stdlib.h>
#include <string.h>

/* The bytes that are buffered, up to the one that ends the line and with it, but at most so many; 0 at the end. */
static size_t bytes_of_line(FILE *file, int end, size_t most)
{
    if (file->begin == file->end && !fill(file))
        return 0;
    size_t count = file->end - file->begin;
    if (count > most)
        count = most;
    unsigned char *found = memchr(file->buffer + file->begin, end, count);
    return found == NULL ? count : (size_t)(found - (file->buffer + file->begin)) + 1;
}

char *fgets(char *restrict line, int size, FILE *restrict file)
{
    HOLD(&file->lock);
    size_t length = 0;
    if (size <= 0 || !begin_reading(file))
        return NULL;
    while (length + 1 < (size_t)size) {
        size_t count = bytes_of_line(file, '\n', (size_t)size - 1 - length);
        if (count == 0 && !file->is_at_end)
            return NULL;
        if (count == 0)
            break;
        memcpy(line + length, file->buffer + file->begin, count);
        file->begin += count;
        length += count;
        if (line[length - 1] == '\n')
            break;
    }
    if (length == 0 && size > 1)
        return NULL;
    line[length] = '\0';
    return line;
}

char *gets(char *line)
{
    HOLD(&stdin->lock);
    size_t length = 0;
    int byte;
    while ((byte = fgetc(stdin)) != EOF && byte != '\n')
        line[length++] = (char)byte;
    if (byte == EOF && length == 0)
        return NULL;
    line[length] = '\0';
    return line;
}

/* Room for so many bytes more and a zero byte. */
static bool has_room(char **line, size_t *capacity, size_t length, size_t more)
{
    size_t wanted = length + more + 1;
    if (*line != NULL && *capacity >= wanted)
        return true;
    if (wanted < 2 * *capacity)
        wanted = 2 * *capacity;
    if (wanted < 120)
        wanted = 120;
    char *larger = realloc(*line, wanted);
    if (larger == NULL)
        return false;
    *line = larger;
    *capacity = wanted;
    return true;
}

ssize_t getdelim(char **restrict line, size_t *restrict capacity, int end, FILE *restrict file)
{
    HOLD(&file->lock);
    size_t length = 0;
    if (line == NULL || capacity == NULL) {
        errno = EINVAL;
        return -1;
    }
    if (*line == NULL)
        *capacity = 0;
    if (!begin_reading(file))
        return -1;
    for (;;) {
        size_t count = bytes_of_line(file, end, SIZE_MAX);
        if (count == 0)
            break;
        if (!has_room(line, capacity, length, count))
            return -1;
        memcpy(*line + length, file->buffer + file->begin, count);
        file->begin += count;
        length += count;
        if ((unsigned char)(*line)[length - 1] == (unsigned char)end)
            break;
    }
    if (length == 0)
        return -1;
    (*line)[length] = '\0';
    return (ssize_t)length;
}

ssize_t getline(char **restrict line, size_t *restrict capacity, FILE *restrict file)
{
    return getdelim(line, capacity, '\n', file);
}
