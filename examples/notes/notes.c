/*
 * A small store of notes in the one directory that it was given. The argument data has the directory, a descriptor to write to, and
 * the commands, one after another: what to do, and the words that it is done with.
 */
#include "argdata.h"

#define WORDS 3
#define ROOM 4096

struct text {
    const char *bytes;
    size_t length;
};

static cloudabi_fd_t directory, output;

/* Output. */

static void print(const char *bytes, size_t length)
{
    cloudabi_iovec_t range = {bytes, length};
    size_t count;
    cloudabi_sys_fd_write(output, &range, 1, &count);
}

static void print_text(const char *text)
{
    size_t length = 0;
    while (text[length] != '\0')
        ++length;
    print(text, length);
}

static void print_number(uint64_t number)
{
    char digits[20];
    size_t at = sizeof digits;
    do {
        digits[--at] = (char)('0' + number % 10);
        number /= 10;
    } while (number != 0);
    print(digits + at, sizeof digits - at);
}

/* The store. Each gives the error of the call that was refused. */

/* Opens a note to write to its end, and closes it again behind the bytes. */
static cloudabi_errno_t write_note(struct text name, uint32_t oflags, const cloudabi_iovec_t *ranges, size_t count)
{
    cloudabi_fdstat_t asked = {.flags = CLOUDABI_FDFLAG_APPEND, .base = CLOUDABI_RIGHT_FD_WRITE};
    cloudabi_fd_t note;
    size_t written;
    cloudabi_errno_t error =
        cloudabi_sys_file_open((cloudabi_lookup_t){directory, 0}, name.bytes, name.length, oflags, &asked, &note);
    if (error != CLOUDABI_ESUCCESS)
        return error;
    error = cloudabi_sys_fd_write(note, ranges, count, &written);
    cloudabi_sys_fd_close(note);
    return error;
}

static cloudabi_errno_t create(const struct text *words)
{
    return write_note(words[1], CLOUDABI_O_CREAT | CLOUDABI_O_EXCL, NULL, 0);
}

static cloudabi_errno_t append(const struct text *words)
{
    cloudabi_iovec_t line[] = {{words[2].bytes, words[2].length}, {"\n", 1}};
    return write_note(words[1], 0, line, 2);
}

static cloudabi_errno_t rename_note(const struct text *words)
{
    return cloudabi_sys_file_rename(directory, words[1].bytes, words[1].length, directory, words[2].bytes, words[2].length);
}

static cloudabi_errno_t remove_note(const struct text *words)
{
    return cloudabi_sys_file_unlink(directory, words[1].bytes, words[1].length, 0);
}

/* Prints the entry's name and the size of what it names. */
static cloudabi_errno_t print_entry(const cloudabi_dirent_t *entry, const char *name)
{
    cloudabi_filestat_t status;
    cloudabi_errno_t error =
        cloudabi_sys_file_stat_get((cloudabi_lookup_t){directory, 0}, name, entry->namlen, &status);
    if (error != CLOUDABI_ESUCCESS)
        return error;
    print_text("  ");
    print(name, entry->namlen);
    print_text(" ");
    print_number(status.size);
    print_text("\n");
    return CLOUDABI_ESUCCESS;
}

/* A reading of the directory fills the room, and may end within an entry; the next one begins with that entry. */
static cloudabi_errno_t list(const struct text *words)
{
    (void)words;
    static char entries[ROOM];
    cloudabi_dircookie_t cookie = 0;
    size_t count = ROOM;
    while (count == ROOM) {
        cloudabi_errno_t error = cloudabi_sys_file_readdir(directory, entries, ROOM, cookie, &count);
        size_t at = 0;
        while (error == CLOUDABI_ESUCCESS && count - at >= sizeof(cloudabi_dirent_t)) {
            cloudabi_dirent_t entry;
            __builtin_memcpy(&entry, entries + at, sizeof entry);
            at += sizeof entry;
            if (count - at < entry.namlen)
                break;
            error = print_entry(&entry, entries + at);
            at += entry.namlen;
            cookie = entry.next;
        }
        if (error != CLOUDABI_ESUCCESS)
            return error;
    }
    return CLOUDABI_ESUCCESS;
}

/* Commands. */

static const struct command {
    const char *name;
    size_t words;
    cloudabi_errno_t (*run)(const struct text *words);
} commands[] = {
    {"create", 2, create}, {"append", 3, append}, {"rename", 3, rename_note}, {"remove", 2, remove_note}, {"list", 1, list},
};

static bool is_same(struct text text, const char *other)
{
    size_t i = 0;
    while (i < text.length && other[i] == text.bytes[i])
        ++i;
    return i == text.length && other[i] == '\0';
}

static const struct command *find_command(const struct text *words, size_t count)
{
    for (size_t i = 0; i < sizeof commands / sizeof commands[0]; ++i) {
        if (count == commands[i].words && is_same(words[0], commands[i].name))
            return &commands[i];
    }
    return NULL;
}

/* Does the command and prints what came of it. */
static bool run(const argdata_t *item)
{
    struct text words[WORDS];
    size_t count = 0;
    argdata_rest_t rest;
    argdata_t word;
    if (!argdata_seq_begin(item, &rest))
        return false;
    while (count < WORDS && argdata_seq_next(&rest, &word)) {
        if (!argdata_get_str(&word, &words[count].bytes, &words[count].length))
            return false;
        ++count;
    }
    const struct command *command = find_command(words, count);
    if (command == NULL || rest.length != 0)
        return false;
    print_text(command->name);
    print_text("\n");
    cloudabi_errno_t error = command->run(words);
    if (error != CLOUDABI_ESUCCESS) {
        print_text("  error ");
        print_number(error);
        print_text("\n");
    }
    return error == CLOUDABI_ESUCCESS;
}

/* Exits with how many commands failed, or with 255 where the argument data isn't as it should be. */
void program_main(const argdata_t *arguments)
{
    argdata_t value, item;
    argdata_rest_t rest;
    uint32_t failed = 0;
    if (!argdata_map_find(arguments, "directory", &value) || !argdata_get_fd(&value, &directory)
        || !argdata_map_find(arguments, "output", &value) || !argdata_get_fd(&value, &output)
        || !argdata_map_find(arguments, "commands", &value) || !argdata_seq_begin(&value, &rest))
        cloudabi_sys_proc_exit(255);
    while (argdata_seq_next(&rest, &item))
        failed += !run(&item);
    cloudabi_sys_proc_exit(failed);
}
