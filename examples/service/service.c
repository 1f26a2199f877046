/*
 * A service that counts the lines and the bytes of files, and can open none: it is handed each file's descriptor by a socket, with the
 * file's name. What it may do is what that descriptor may, which is to read.
 *
 * The client, which is the first thread, has a directory. It opens each file that it is told of with the right to read alone, sends the
 * descriptor on, and closes its own: the file stays open while its descriptor is on its way. The service is a second thread, which waits
 * for what comes. It ends where the client says that nothing will come any more, and the client where the service has closed its end.
 *
 * The argument data is a map: `directory`, `output`, and `files`, a sequence of names.
 */
#include "argdata.h"

#define WRITE_LOCKED UINT32_C(0x40000000)
#define NAME_ROOM 64

struct count {
    cloudabi_errno_t error;
    uint64_t lines, bytes;
};

static cloudabi_fd_t directory, output;

/* The service. It uses `service_end` alone, and the descriptors that come by it. */

static cloudabi_fd_t service_end;
static uint32_t service_lock;
static _Alignas(16) unsigned char service_stack[16384];

static struct count count_file(cloudabi_fd_t file)
{
    unsigned char bytes[4096];
    cloudabi_iovec_t range = {bytes, sizeof bytes};
    struct count found = {0};
    size_t some;
    do {
        found.error = cloudabi_sys_fd_read(file, &range, 1, &some);
        if (found.error != CLOUDABI_ESUCCESS)
            return found;
        for (size_t at = 0; at < some; ++at)
            found.lines += bytes[at] == '\n';
        found.bytes += some;
    } while (some > 0);
    return found;
}

/* One request: false where there is none any more. */
static bool serve(void)
{
    char name[NAME_ROOM];
    cloudabi_fd_t file;
    cloudabi_iovec_t range = {name, sizeof name};
    cloudabi_recv_in_t in = {.iovs = &range, .iovs_count = 1, .fds = &file, .fds_count = 1};
    cloudabi_recv_out_t out;
    struct count found = {.error = CLOUDABI_EBADF};
    size_t written;
    if (cloudabi_sys_sock_recv(service_end, &in, &out) != CLOUDABI_ESUCCESS || out.datalen == 0)
        return false;
    if (out.fdslen == 1) {
        found = count_file(file);
        cloudabi_sys_fd_close(file);
    }
    range = (cloudabi_iovec_t){&found, sizeof found};
    return cloudabi_sys_fd_write(service_end, &range, 1, &written) == CLOUDABI_ESUCCESS;
}

/* A thread ends by letting go of a lock that it has. */
static void run_service(cloudabi_tid_t self, void *argument)
{
    (void)argument;
    while (serve())
        continue;
    cloudabi_sys_fd_close(service_end);
    service_lock = WRITE_LOCKED | self;
    cloudabi_sys_thread_exit(&service_lock, CLOUDABI_SCOPE_PRIVATE);
    cloudabi_sys_proc_exit(2);
}

static void start_service(cloudabi_fd_t end)
{
    cloudabi_threadattr_t attributes = {(void *)run_service, service_stack, sizeof service_stack, NULL};
    cloudabi_tid_t thread;
    service_end = end;
    if (cloudabi_sys_thread_create(&attributes, &thread) != CLOUDABI_ESUCCESS)
        cloudabi_sys_proc_exit(1);
}

/* The client. */

static void print(const char *text, size_t length)
{
    cloudabi_iovec_t range = {text, length};
    size_t count;
    cloudabi_sys_fd_write(output, &range, 1, &count);
}

static void print_number(uint64_t number)
{
    char text[24];
    size_t at = sizeof text;
    do
        text[--at] = (char)('0' + number % 10);
    while ((number /= 10) != 0);
    print(text + at, sizeof text - at);
}

#define PRINT(text) print(text, sizeof text - 1)

/* Hands the file of a name to the service. */
static cloudabi_errno_t hand(cloudabi_fd_t end, const char *name, size_t length)
{
    cloudabi_fdstat_t asked = {.base = CLOUDABI_RIGHT_FD_READ};
    cloudabi_iovec_t range = {name, length < NAME_ROOM ? length : NAME_ROOM};
    cloudabi_fd_t file;
    cloudabi_send_in_t in = {.iovs = &range, .iovs_count = 1, .fds = &file, .fds_count = 1};
    cloudabi_send_out_t out;
    cloudabi_errno_t error = cloudabi_sys_file_open((cloudabi_lookup_t){.fd = directory}, name, length, 0, &asked, &file);
    if (error != CLOUDABI_ESUCCESS)
        return error;
    error = cloudabi_sys_sock_send(end, &in, &out);
    cloudabi_sys_fd_close(file);
    return error;
}

/* Waits for a whole answer; how many bytes came, which are fewer where the service has ended. */
static size_t take_answer(cloudabi_fd_t end, struct count *found)
{
    cloudabi_iovec_t range = {found, sizeof *found};
    cloudabi_recv_in_t in = {.iovs = &range, .iovs_count = 1, .flags = CLOUDABI_SOCK_RECV_WAITALL};
    cloudabi_recv_out_t out;
    return cloudabi_sys_sock_recv(end, &in, &out) == CLOUDABI_ESUCCESS ? out.datalen : 0;
}

static void ask(cloudabi_fd_t end, const char *name, size_t length)
{
    struct count found;
    cloudabi_errno_t error = hand(end, name, length);
    print(name, length);
    if (error == CLOUDABI_ESUCCESS)
        error = take_answer(end, &found) == sizeof found ? found.error : CLOUDABI_EPIPE;
    if (error != CLOUDABI_ESUCCESS) {
        PRINT(": error ");
        print_number(error);
    } else {
        PRINT(": lines ");
        print_number(found.lines);
        PRINT(", bytes ");
        print_number(found.bytes);
    }
    PRINT("\n");
}

static void ask_for_all(cloudabi_fd_t end, const argdata_t *files)
{
    argdata_rest_t rest;
    argdata_t item;
    const char *name;
    size_t length;
    if (!argdata_seq_begin(files, &rest))
        return;
    while (argdata_seq_next(&rest, &item)) {
        if (argdata_get_str(&item, &name, &length))
            ask(end, name, length);
    }
}

void program_main(const argdata_t *arguments)
{
    argdata_t value, files;
    cloudabi_fd_t mine, other;
    struct count none;
    if (!argdata_map_find(arguments, "directory", &value) || !argdata_get_fd(&value, &directory)
        || !argdata_map_find(arguments, "output", &value) || !argdata_get_fd(&value, &output) || !argdata_map_find(arguments, "files", &files))
        cloudabi_sys_proc_exit(255);
    if (cloudabi_sys_fd_create2(CLOUDABI_FILETYPE_SOCKET_STREAM, &mine, &other) != CLOUDABI_ESUCCESS)
        cloudabi_sys_proc_exit(1);
    start_service(other);
    ask_for_all(mine, &files);
    cloudabi_sys_sock_shutdown(mine, CLOUDABI_SHUT_WR);
    if (take_answer(mine, &none) == 0)
        PRINT("the service has ended\n");
}
