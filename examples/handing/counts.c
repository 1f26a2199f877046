/*
 * Counts the lines and the bytes of what it was handed. Nobody says to it what its descriptors are of: it reads descriptor 1 to its end, and
 * writes to descriptor 0. Then it asks for more, as a program would that isn't to be trusted: for the other descriptors, and to write the file.
 * The argument data is the text to be written before the counts.
 */
#include "argdata.h"

static void print(const char *text, size_t length)
{
    cloudabi_iovec_t range = {text, length};
    size_t count;
    cloudabi_sys_fd_write(0, &range, 1, &count);
}

#define PRINT(text) print(text, sizeof text - 1)

static void print_number(uint64_t number)
{
    char text[24];
    size_t at = sizeof text;
    do
        text[--at] = (char)('0' + number % 10);
    while ((number /= 10) != 0);
    print(text + at, sizeof text - at);
}

static void count(void)
{
    static unsigned char bytes[4096];
    cloudabi_iovec_t range = {bytes, sizeof bytes};
    uint64_t lines = 0, all = 0;
    size_t some;
    while (cloudabi_sys_fd_read(1, &range, 1, &some) == CLOUDABI_ESUCCESS && some > 0) {
        for (size_t at = 0; at < some; ++at)
            lines += bytes[at] == '\n';
        all += some;
    }
    print_number(lines);
    PRINT(" lines, ");
    print_number(all);
    PRINT(" bytes\n");
}

/* What it has beside the two: nothing. */
static void ask_for_more(void)
{
    cloudabi_iovec_t range = {"nothing\n", 8};
    cloudabi_fdstat_t stat;
    uint64_t further = 0;
    size_t some;
    for (cloudabi_fd_t fd = 2; fd < 1024; ++fd)
        further += cloudabi_sys_fd_stat_get(fd, &stat) == CLOUDABI_ESUCCESS;
    PRINT("  it has ");
    print_number(further);
    PRINT(" further descriptors, and may ");
    if (cloudabi_sys_fd_write(1, &range, 1, &some) != CLOUDABI_ESUCCESS)
        PRINT("not ");
    PRINT("write the file\n");
}

void program_main(const argdata_t *arguments)
{
    const char *text;
    size_t length;
    if (argdata_get_str(arguments, &text, &length))
        print(text, length);
    count();
    ask_for_more();
}
