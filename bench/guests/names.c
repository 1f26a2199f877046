/*
 * A guest that does one thing with the names of a directory as often as it is asked, and exits with 0 where all came out as it should.
 * bench/names runs it and measures how long one takes. names.elf is made of this text by `../../guest/cc --bare -s -o names.elf names.c`.
 *
 * Its argument data is a map: `in` has the directory, `names` how many files it has, whose names are numbers of six digits from 0 on,
 * and one of the keys `list`, `stat`, `open`, `rename` and `unlink` has how often that is done.
 */
#include "argdata.h"

#define NAME_LENGTH 6

static cloudabi_fd_t directory;
static int64_t names;

static void demand(bool is_so)
{
    if (!is_so)
        cloudabi_sys_proc_exit(1);
}

/* Writes this number in six digits. */
static void put_number(char *name, int64_t number)
{
    for (size_t i = NAME_LENGTH; i > 0; --i) {
        name[i - 1] = (char)('0' + number % 10);
        number /= 10;
    }
}

/* A number of a file, from all parts of the directory in turn. */
static int64_t some_number(int64_t turn)
{
    return turn * 7919 % names;
}

/* The entries of two places that lie far apart are read in turn, one at a time: so all names are read twice. */
static void list(int64_t times)
{
    static char entry[sizeof(cloudabi_dirent_t) + NAME_LENGTH];
    char wanted[NAME_LENGTH];
    size_t count;
    for (; times > 0; --times) {
        for (int64_t turn = 0; turn < 2 * names; ++turn) {
            int64_t place = (turn / 2 + turn % 2 * (names / 2)) % names;
            demand(cloudabi_sys_file_readdir(directory, entry, sizeof entry, (uint64_t)place, &count) == CLOUDABI_ESUCCESS);
            demand(count == sizeof entry);
            put_number(wanted, place);
            for (size_t i = 0; i < NAME_LENGTH; ++i)
                demand(entry[sizeof(cloudabi_dirent_t) + i] == wanted[i]);
        }
    }
}

static void look(int64_t times)
{
    cloudabi_lookup_t lookup = {directory, 0};
    cloudabi_filestat_t status;
    char name[NAME_LENGTH];
    for (int64_t turn = 0; turn < times; ++turn) {
        put_number(name, some_number(turn));
        demand(cloudabi_sys_file_stat_get(lookup, name, sizeof name, &status) == CLOUDABI_ESUCCESS);
    }
}

static void open_and_close(int64_t times)
{
    cloudabi_fdstat_t asked = {.base = CLOUDABI_RIGHT_FD_READ};
    cloudabi_lookup_t lookup = {directory, 0};
    cloudabi_fd_t fd;
    char name[NAME_LENGTH];
    for (int64_t turn = 0; turn < times; ++turn) {
        put_number(name, some_number(turn));
        demand(cloudabi_sys_file_open(lookup, name, sizeof name, 0, &asked, &fd) == CLOUDABI_ESUCCESS);
        demand(cloudabi_sys_fd_close(fd) == CLOUDABI_ESUCCESS);
    }
}

/* A file gets another name, and its own again. */
static void give_name(int64_t times)
{
    char name[NAME_LENGTH], other[NAME_LENGTH + 1];
    for (int64_t turn = 0; turn < times; ++turn) {
        put_number(name, some_number(turn));
        put_number(other, some_number(turn));
        other[NAME_LENGTH] = 'x';
        demand(cloudabi_sys_file_rename(directory, name, sizeof name, directory, other, sizeof other) == CLOUDABI_ESUCCESS);
        demand(cloudabi_sys_file_rename(directory, other, sizeof other, directory, name, sizeof name) == CLOUDABI_ESUCCESS);
    }
}

/* A directory is made and taken away again. */
static void make_and_unlink(int64_t times)
{
    char name[NAME_LENGTH + 1];
    name[NAME_LENGTH] = 'y';
    for (int64_t turn = 0; turn < times; ++turn) {
        put_number(name, some_number(turn));
        demand(cloudabi_sys_file_create(directory, name, sizeof name, CLOUDABI_FILETYPE_DIRECTORY) == CLOUDABI_ESUCCESS);
        demand(cloudabi_sys_file_unlink(directory, name, sizeof name, CLOUDABI_UNLINK_REMOVEDIR) == CLOUDABI_ESUCCESS);
    }
}

static const struct {
    const char *name;
    void (*run)(int64_t times);
} things[] = {{"list", list}, {"stat", look}, {"open", open_and_close}, {"rename", give_name}, {"unlink", make_and_unlink}};

void program_main(const argdata_t *arguments)
{
    argdata_t value;
    int64_t times;
    demand(argdata_map_find(arguments, "in", &value) && argdata_get_fd(&value, &directory));
    demand(argdata_map_find(arguments, "names", &value) && argdata_get_int(&value, &names));
    for (size_t i = 0; i < sizeof things / sizeof things[0]; ++i) {
        if (argdata_map_find(arguments, things[i].name, &value)) {
            demand(argdata_get_int(&value, &times));
            things[i].run(times);
            return;
        }
    }
    demand(false);
}
