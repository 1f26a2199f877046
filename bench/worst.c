/*
 * A guest that does its worst, without end: what its argument data says under `do`. bench/worst runs it and measures what it costs.
 * worst.elf is made of this text by `../guest/cc --bare -s -o worst.elf worst.c`.
 */
#include "argdata.h"

#define MAPPING ((size_t)1 << 20)
#define FILE_LIMIT ((cloudabi_filesize_t)64 << 20)
#define NAME_LENGTH 255

static cloudabi_fd_t directory, input, output;
static char bytes[65536];

static void spin(void)
{
    for (;;)
        __asm__ volatile("");
}

/* As many pages as it gets, each written to; it then spins. */
static void fill_memory(void)
{
    void *memory = NULL;
    while (cloudabi_sys_mem_map(NULL, MAPPING, CLOUDABI_PROT_READ | CLOUDABI_PROT_WRITE,
                                CLOUDABI_MAP_ANON | CLOUDABI_MAP_PRIVATE, 0, 0, &memory)
           == CLOUDABI_ESUCCESS) {
        for (size_t at = 0; at < MAPPING; at += 4096)
            ((volatile char *)memory)[at] = 1;
    }
    spin();
}

/* Takes nearly all of its memory, then changes the rights of all of it with each call. */
static void protect_memory(void)
{
    size_t length = (size_t)65000 * 4096;
    void *memory = NULL;
    cloudabi_sys_mem_map(NULL, length, CLOUDABI_PROT_READ, CLOUDABI_MAP_ANON | CLOUDABI_MAP_PRIVATE, 0, 0, &memory);
    for (uint32_t prot = CLOUDABI_PROT_READ;; prot ^= CLOUDABI_PROT_WRITE)
        cloudabi_sys_mem_protect(memory, length, prot);
}

/* Takes nearly all of its memory and gives it back, again and again. */
static void map_memory(void)
{
    size_t length = (size_t)65000 * 4096;
    void *memory = NULL;
    for (;;) {
        cloudabi_sys_mem_map(NULL, length, CLOUDABI_PROT_READ, CLOUDABI_MAP_ANON | CLOUDABI_MAP_PRIVATE, 0, 0, &memory);
        cloudabi_sys_mem_unmap(memory, length);
    }
}

static void write_output(void)
{
    cloudabi_iovec_t range = {bytes, sizeof bytes};
    size_t count;
    for (;;)
        cloudabi_sys_fd_write(output, &range, 1, &count);
}

static void read_input(void)
{
    cloudabi_iovec_t range = {bytes, sizeof bytes};
    cloudabi_filesize_t place;
    size_t count;
    for (;;) {
        cloudabi_sys_fd_read(input, &range, 1, &count);
        cloudabi_sys_fd_seek(input, 0, CLOUDABI_WHENCE_SET, &place);
    }
}

static void make_calls(void)
{
    cloudabi_fdstat_t status;
    for (;;)
        cloudabi_sys_fd_stat_get(output, &status);
}

static void be_denied(void)
{
    cloudabi_iovec_t range = {bytes, 1};
    size_t count;
    for (;;)
        cloudabi_sys_fd_read(output, &range, 1, &count);
}

/* Makes the file of this number and this length of name, and leaves it closed. */
static void make_file(uint64_t number, size_t name_length, cloudabi_filesize_t size)
{
    char name[NAME_LENGTH];
    cloudabi_fdstat_t asked = {.base = CLOUDABI_RIGHT_FILE_ALLOCATE};
    cloudabi_fd_t fd;
    for (size_t i = name_length; i > 0; --i) {
        name[i - 1] = (char)('0' + number % 10);
        number /= 10;
    }
    if (cloudabi_sys_file_open((cloudabi_lookup_t){directory, 0}, name, name_length, CLOUDABI_O_CREAT, &asked, &fd)
        != CLOUDABI_ESUCCESS)
        return;
    if (size != 0)
        cloudabi_sys_file_allocate(fd, 0, size);
    cloudabi_sys_fd_close(fd);
}

static void fill_files(void)
{
    for (uint64_t number = 0;; ++number)
        make_file(number, 10, FILE_LIMIT);
}

static void make_names(void)
{
    for (uint64_t number = 0;; ++number)
        make_file(number, NAME_LENGTH, 0);
}

/* Makes a directory in a directory in a directory: each record of the report's tree has the path of all of them. */
static void nest_directories(void)
{
    cloudabi_fdstat_t asked = {.base = CLOUDABI_RIGHT_FILE_OPEN | CLOUDABI_RIGHT_FILE_CREATE_DIRECTORY,
                               .inheriting = CLOUDABI_RIGHT_FILE_OPEN | CLOUDABI_RIGHT_FILE_CREATE_DIRECTORY};
    cloudabi_fd_t inner;
    for (;;) {
        cloudabi_sys_file_create(directory, "d", 1, CLOUDABI_FILETYPE_DIRECTORY);
        if (cloudabi_sys_file_open((cloudabi_lookup_t){directory, 0}, "d", 1, CLOUDABI_O_DIRECTORY, &asked, &inner)
            == CLOUDABI_ESUCCESS) {
            cloudabi_sys_fd_close(directory);
            directory = inner;
        }
    }
}

/* Makes 5000 names, and then lists the last of them again and again. */
static void list_names(void)
{
    size_t count;
    for (uint64_t number = 0; number < 5000; ++number)
        make_file(number, 10, 0);
    for (;;)
        cloudabi_sys_file_readdir(directory, bytes, 64, 4999, &count);
}

/* Sends so many bytes, and a pair's two ends into the channel that the second reads. */
static void send_ends(const cloudabi_fd_t ends[2], size_t length)
{
    cloudabi_iovec_t range = {bytes, length};
    cloudabi_send_in_t in = {&range, 1, ends, 2, 0};
    cloudabi_send_out_t out;
    cloudabi_sys_sock_send(ends[0], &in, &out);
}

/* Makes pairs of streams that hold themselves, with as many bytes in each channel as it has room for. */
static void keep_channels(void)
{
    cloudabi_fd_t ends[2];
    cloudabi_iovec_t range = {bytes, sizeof bytes};
    size_t count;
    for (;;) {
        if (cloudabi_sys_fd_create2(CLOUDABI_FILETYPE_SOCKET_STREAM, &ends[0], &ends[1]) != CLOUDABI_ESUCCESS)
            continue;
        cloudabi_sys_fd_write(ends[1], &range, 1, &count);
        send_ends(ends, sizeof bytes);
        cloudabi_sys_fd_close(ends[0]);
        cloudabi_sys_fd_close(ends[1]);
    }
}

/* Sends a byte at a time, to pairs of streams that hold themselves. */
static void send_bytes(void)
{
    cloudabi_fd_t ends[2];
    cloudabi_iovec_t range = {bytes, 1};
    size_t count;
    for (;;) {
        if (cloudabi_sys_fd_create2(CLOUDABI_FILETYPE_SOCKET_STREAM, &ends[0], &ends[1]) != CLOUDABI_ESUCCESS)
            continue;
        send_ends(ends, 1);
        for (size_t i = 1; i < sizeof bytes; ++i)
            cloudabi_sys_fd_write(ends[0], &range, 1, &count);
        cloudabi_sys_fd_close(ends[0]);
        cloudabi_sys_fd_close(ends[1]);
    }
}

static const struct {
    const char *name;
    void (*run)(void);
} kinds[] = {
    {"spin", spin},   {"memory", fill_memory}, {"protect", protect_memory}, {"map", map_memory}, {"output", write_output},
    {"input", read_input}, {"calls", make_calls}, {"denials", be_denied},   {"files", fill_files}, {"names", make_names},
    {"list", list_names}, {"nest", nest_directories}, {"channels", keep_channels}, {"sends", send_bytes},
};

void program_main(const argdata_t *arguments)
{
    argdata_t value, what;
    const char *text;
    size_t length;
    if (!argdata_map_find(arguments, "do", &what) || !argdata_get_str(&what, &text, &length)
        || !argdata_map_find(arguments, "directory", &value) || !argdata_get_fd(&value, &directory)
        || !argdata_map_find(arguments, "input", &value) || !argdata_get_fd(&value, &input)
        || !argdata_map_find(arguments, "output", &value) || !argdata_get_fd(&value, &output))
        cloudabi_sys_proc_exit(255);
    for (size_t i = 0; i < sizeof kinds / sizeof kinds[0]; ++i) {
        size_t at = 0;
        while (at < length && kinds[i].name[at] == text[at])
            ++at;
        if (at == length && kinds[i].name[at] == '\0')
            kinds[i].run();
    }
    cloudabi_sys_proc_exit(254);
}
