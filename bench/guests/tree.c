/*
 * A guest that does one thing with files as often as it is asked, and exits with 0 where all came out as it should. bench/tree runs it
 * and measures how long one takes. tree.elf is made of this text by `../../guest/cc --bare -s -o tree.elf tree.c`.
 *
 * Its argument data is a map. The key `walk`, `write`, `list` or `open` has how often that is done, and `in` the directory in which the
 * files are. For `open` there are `others`, how many files are open beside, and `low`, whether a number below theirs is free.
 */
#include "argdata.h"

#define FILE_SIZE ((cloudabi_filesize_t)64 << 20)
#define PIECE 4096
#define NAME_LENGTH 4
#define NAMES 10000
#define NAMES_AT_ONCE 100

static cloudabi_fd_t directory;
static int64_t others;
static bool low;
static char bytes[PIECE];

static void demand(bool is_so)
{
    if (!is_so)
        cloudabi_sys_proc_exit(1);
}

/* A path of eight components leads to a file. */
static void walk(int64_t times)
{
    static const char path[] = "directory/directory/directory/directory/directory/directory/directory/file";
    cloudabi_lookup_t lookup = {directory, CLOUDABI_LOOKUP_SYMLINK_FOLLOW};
    cloudabi_filestat_t status;
    for (; times > 0; --times)
        demand(cloudabi_sys_file_stat_get(lookup, path, sizeof path - 1, &status) == CLOUDABI_ESUCCESS
               && status.kind == CLOUDABI_FILETYPE_REGULAR_FILE);
}

static cloudabi_fd_t open_file(const char *name, size_t length, uint32_t flags, cloudabi_rights_t rights)
{
    cloudabi_fdstat_t asked = {.base = rights};
    cloudabi_fd_t fd = 0;
    demand(cloudabi_sys_file_open((cloudabi_lookup_t){directory, 0}, name, length, flags, &asked, &fd) == CLOUDABI_ESUCCESS);
    return fd;
}

/* A file of 64 MiB is made, and written over piece by piece. At the end it is taken away, so that no report has it. */
static void write(int64_t times)
{
    cloudabi_rights_t rights = CLOUDABI_RIGHT_FD_WRITE | CLOUDABI_RIGHT_FD_SEEK | CLOUDABI_RIGHT_FILE_ALLOCATE;
    cloudabi_fd_t fd = open_file("large", 5, CLOUDABI_O_CREAT | CLOUDABI_O_EXCL, rights);
    cloudabi_iovec_t range = {bytes, PIECE};
    size_t count = 0;
    demand(cloudabi_sys_file_allocate(fd, 0, FILE_SIZE) == CLOUDABI_ESUCCESS);
    for (cloudabi_filesize_t at = 0; times > 0; --times, at = (at + PIECE) % FILE_SIZE)
        demand(cloudabi_sys_fd_pwrite(fd, &range, 1, at, &count) == CLOUDABI_ESUCCESS && count == PIECE);
    demand(cloudabi_sys_file_unlink(directory, "large", 5, 0) == CLOUDABI_ESUCCESS);
}

/* The directory's 10,000 names of four bytes are listed, a hundred at a time, until nothing comes. */
static void list(int64_t times)
{
    static char entries[NAMES_AT_ONCE * (sizeof(cloudabi_dirent_t) + NAME_LENGTH)];
    for (; times > 0; --times) {
        uint64_t names = 0;
        size_t count;
        do {
            demand(cloudabi_sys_file_readdir(directory, entries, sizeof entries, names, &count) == CLOUDABI_ESUCCESS);
            names += count / (sizeof(cloudabi_dirent_t) + NAME_LENGTH);
        } while (count != 0);
        demand(names == NAMES);
    }
}

/* Opens the file whose name is this number, in four digits. */
static cloudabi_fd_t open_number(int64_t number)
{
    char name[NAME_LENGTH];
    for (size_t i = NAME_LENGTH; i > 0; --i) {
        name[i - 1] = (char)('0' + number % 10);
        number /= 10;
    }
    return open_file(name, sizeof name, 0, CLOUDABI_RIGHT_FD_READ);
}

/* A file is opened and closed, beside others that are open. It gets the number behind theirs, or one below. */
static void open_and_close(int64_t times)
{
    cloudabi_fd_t lowest = open_number(others);
    if (!low)
        demand(cloudabi_sys_fd_close(lowest) == CLOUDABI_ESUCCESS);
    for (int64_t number = 0; number < others; ++number)
        open_number(number);
    if (low)
        demand(cloudabi_sys_fd_close(lowest) == CLOUDABI_ESUCCESS);
    for (; times > 0; --times)
        demand(cloudabi_sys_fd_close(open_number(others)) == CLOUDABI_ESUCCESS);
}

static const struct {
    const char *name;
    void (*run)(int64_t times);
} things[] = {{"walk", walk}, {"write", write}, {"list", list}, {"open", open_and_close}};

void program_main(const argdata_t *arguments)
{
    argdata_t value;
    int64_t times;
    demand(argdata_map_find(arguments, "in", &value) && argdata_get_fd(&value, &directory));
    if (argdata_map_find(arguments, "others", &value))
        demand(argdata_get_int(&value, &others));
    if (argdata_map_find(arguments, "low", &value))
        demand(argdata_get_bool(&value, &low));
    for (size_t i = 0; i < sizeof things / sizeof things[0]; ++i) {
        if (argdata_map_find(arguments, things[i].name, &value)) {
            demand(argdata_get_int(&value, &times));
            things[i].run(times);
            return;
        }
    }
    demand(false);
}
