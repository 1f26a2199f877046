/*
 * A guest that opens, makes, removes or cuts files as often as it is asked, and exits with 0 where all came out as it should. The
 * scripts bench/held, bench/nameless and bench/cut run it. files.elf is made of this text by
 * `../../guest/cc --bare -s -o files.elf files.c`.
 *
 * Its argument data is a map. The key `open`, `make` or `cut` has how often that is done, `in` the directory in which the files are,
 * and `others` how many files are open beside.
 */
#include "argdata.h"

#define FILE_SIZE ((cloudabi_filesize_t)64 << 20)
#define NAME_LENGTH 4

static cloudabi_fd_t directory;
static int64_t others;

static void demand(bool is_so)
{
    if (!is_so)
        cloudabi_sys_proc_exit(1);
}

/* The file whose name is this number, in four digits, is made or opened. */
static cloudabi_fd_t open_number(int64_t number, char *name)
{
    cloudabi_fdstat_t asked = {.base = CLOUDABI_RIGHT_FD_READ | CLOUDABI_RIGHT_FILE_ALLOCATE | CLOUDABI_RIGHT_FILE_STAT_FPUT_SIZE};
    cloudabi_fd_t fd = 0;
    for (size_t i = NAME_LENGTH; i > 0; --i) {
        name[i - 1] = (char)('0' + number % 10);
        number /= 10;
    }
    demand(cloudabi_sys_file_open((cloudabi_lookup_t){directory, 0}, name, NAME_LENGTH, CLOUDABI_O_CREAT, &asked, &fd) == CLOUDABI_ESUCCESS);
    return fd;
}

/* A file is opened and closed, beside others that are open, all below its number. */
static void open_and_close(int64_t times)
{
    char name[NAME_LENGTH];
    for (int64_t number = 0; number < others; ++number)
        open_number(number, name);
    for (; times > 0; --times)
        demand(cloudabi_sys_fd_close(open_number(others, name)) == CLOUDABI_ESUCCESS);
}

/* A file without a name, which is open. */
static cloudabi_fd_t open_nameless(int64_t number)
{
    char name[NAME_LENGTH];
    cloudabi_fd_t fd = open_number(number, name);
    demand(cloudabi_sys_file_unlink(directory, name, NAME_LENGTH, 0) == CLOUDABI_ESUCCESS);
    return fd;
}

/* A file is made, its name is taken away and it is closed, beside others without a name that are open. */
static void make_and_remove(int64_t times)
{
    for (int64_t number = 0; number < others; ++number)
        open_nameless(number);
    for (; times > 0; --times)
        demand(cloudabi_sys_fd_close(open_nameless(others)) == CLOUDABI_ESUCCESS);
}

/* A file is made, filled by zeros up to 64 MiB and emptied. It stays. */
static void cut(int64_t times)
{
    static const cloudabi_filestat_t empty;
    char name[NAME_LENGTH];
    for (; times > 0; --times) {
        cloudabi_fd_t fd = open_number(times, name);
        demand(cloudabi_sys_file_allocate(fd, 0, FILE_SIZE) == CLOUDABI_ESUCCESS);
        demand(cloudabi_sys_file_stat_fput(fd, &empty, CLOUDABI_FILESTAT_SIZE) == CLOUDABI_ESUCCESS);
        demand(cloudabi_sys_fd_close(fd) == CLOUDABI_ESUCCESS);
    }
}

static const struct {
    const char *name;
    void (*run)(int64_t times);
} things[] = {{"open", open_and_close}, {"make", make_and_remove}, {"cut", cut}};

void program_main(const argdata_t *arguments)
{
    argdata_t value;
    int64_t times;
    demand(argdata_map_find(arguments, "in", &value) && argdata_get_fd(&value, &directory));
    if (argdata_map_find(arguments, "others", &value))
        demand(argdata_get_int(&value, &others));
    for (size_t i = 0; i < sizeof things / sizeof things[0]; ++i) {
        if (argdata_map_find(arguments, things[i].name, &value)) {
            demand(argdata_get_int(&value, &times));
            things[i].run(times);
            return;
        }
    }
    demand(false);
}
