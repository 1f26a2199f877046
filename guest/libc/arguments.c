/* The start of a program that has `main`: the standard streams, the directories, and the words of argv. */
#include "system.h"

#include <stdio.h>
#include <stdlib.h>
#include <string.h>

#define NUMBER_ROOM 24 /* of a number's digits, with its sign and a zero byte */

int main(int argc, char **argv, char **environment);
extern char **environ;
void __libc_init_array(void);

/* The names of the program, as GNU's C library has them. */
char *program_invocation_name = "program", *program_invocation_short_name = "program";

static void take_stream(const argdata_t *arguments, const char *name, int fd)
{
    argdata_t value;
    cloudabi_fd_t given;
    if (argdata_map_find(arguments, name, &value) && argdata_get_fd(&value, &given))
        set_descriptor(fd, given, false);
}

/* The digits of a number, at the end of the room. */
static char *text_of_number(int64_t number, char *room)
{
    char *text = room + NUMBER_ROOM - 1;
    uint64_t rest = number < 0 ? -(uint64_t)number : (uint64_t)number;
    *text = '\0';
    do {
        *--text = (char)('0' + rest % 10);
        rest /= 10;
    } while (rest != 0);
    if (number < 0)
        *--text = '-';
    return text;
}

/* A word of argv: a text as it is, a number in decimal, a truth or null by its name. NULL where it is something else. */
static char *word_of(const argdata_t *item, char *room)
{
    const char *text;
    size_t length;
    int64_t number;
    bool truth;
    if (argdata_get_str(item, &text, &length))
        return (char *)text;
    if (argdata_get_int(item, &number))
        return text_of_number(number, room);
    if (argdata_get_bool(item, &truth))
        return truth ? "true" : "false";
    return item->length == 0 ? "null" : NULL;
}

static int count_of(const argdata_t *sequence)
{
    argdata_rest_t rest;
    argdata_t item;
    int count = 0;
    if (!argdata_seq_begin(sequence, &rest))
        return 0;
    while (argdata_seq_next(&rest, &item))
        ++count;
    return count;
}

/* The words to argv, which has room for them; how many there are. */
static int take_words(const argdata_t *sequence, char **argv, char (*numbers)[NUMBER_ROOM])
{
    argdata_rest_t rest;
    argdata_t item;
    int argc = 0;
    if (!argdata_seq_begin(sequence, &rest))
        return 0;
    while (argdata_seq_next(&rest, &item)) {
        argv[argc] = word_of(&item, numbers[argc]);
        argc += argv[argc] != NULL;
    }
    return argc;
}

void program_main(const argdata_t *arguments)
{
    argdata_t args = {0};
    take_stream(arguments, "stdin", 0);
    take_stream(arguments, "stdout", 1);
    take_stream(arguments, "stderr", 2);
    take_directories(arguments);
    check_launch(arguments);
    argdata_map_find(arguments, "args", &args);
    int count = count_of(&args);
    char *argv[count + 2], numbers[count + 1][NUMBER_ROOM];
    int argc = take_words(&args, argv, numbers);
    if (argc == 0)
        argv[argc++] = "program";
    argv[argc] = NULL;
    char *slash = strrchr(argv[0], '/');
    program_invocation_name = argv[0];
    program_invocation_short_name = slash == NULL ? argv[0] : slash + 1;
    __libc_init_array();
    exit(main(argc, argv, environ));
}
