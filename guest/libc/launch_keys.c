/* Mistakes in a launch file that nothing else would show. Each is a line on standard error, where that was given. */
#include "system.h"

#include <errno.h>
#include <string.h>
#include <unistd.h>

#define LINE_ROOM 256

/* A line, and how long it is; what has no room is left out. */
struct line {
    char text[LINE_ROOM];
    size_t length;
};

static void add(struct line *line, const char *text)
{
    size_t length = strnlen(text, LINE_ROOM - 1 - line->length);
    memcpy(line->text + line->length, text, length);
    line->length += length;
}

/* Says `launch file: BEFORE "NAME" BEHIND`. */
static void say(const char *before, const char *name, const char *behind)
{
    int error = errno;
    struct line line = {.length = 0};
    add(&line, "launch file: ");
    add(&line, before);
    add(&line, "\"");
    add(&line, name);
    add(&line, "\"");
    add(&line, behind);
    line.text[line.length++] = '\n';
    write(STDERR_FILENO, line.text, line.length);
    errno = error;
}

static bool is_descriptor(const argdata_t *value)
{
    cloudabi_fd_t fd;
    return argdata_get_fd(value, &fd);
}

static void check_words(const argdata_t *value)
{
    argdata_rest_t rest;
    argdata_t item;
    if (!argdata_seq_begin(value, &rest)) {
        say("", "args", " is no sequence of words");
        return;
    }
    while (argdata_seq_next(&rest, &item)) {
        argdata_rest_t inner;
        if (argdata_seq_begin(&item, &inner) || argdata_map_begin(&item, &inner) || is_descriptor(&item))
            say("", "args", " has an item that is no word");
    }
}

static void check_directories(const argdata_t *value)
{
    argdata_rest_t rest;
    argdata_t key, item;
    const char *name;
    size_t length;
    if (!argdata_map_begin(value, &rest)) {
        say("", "directories", " is no map from names to descriptors");
        return;
    }
    while (argdata_map_next(&rest, &key, &item)) {
        if (argdata_get_str(&key, &name, &length) && !is_descriptor(&item))
            say("the directory ", name, " is no descriptor");
    }
}

static void check_key(const char *name, const argdata_t *value)
{
    if (strcmp(name, "args") == 0)
        check_words(value);
    else if (strcmp(name, "directories") == 0)
        check_directories(value);
    else if (strcmp(name, "stdin") != 0 && strcmp(name, "stdout") != 0 && strcmp(name, "stderr") != 0)
        say("the C library has no key ", name, ", but args, stdin, stdout, stderr, directories");
    else if (!is_descriptor(value))
        say("", name, " is no descriptor");
}

void check_launch(const argdata_t *arguments)
{
    argdata_rest_t rest;
    argdata_t key, value;
    const char *name;
    size_t length;
    if (!argdata_map_begin(arguments, &rest))
        return;
    while (argdata_map_next(&rest, &key, &value)) {
        if (argdata_get_str(&key, &name, &length) && value.length > 0)
            check_key(name, &value);
    }
}
