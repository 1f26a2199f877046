/*
 * A guest that moves bytes and descriptors through channels, or makes and closes them, as often as it is asked, and exits with 0. The script
 * bench/channels runs it. channels.elf is made of this text by `../../guest/cc --bare -s -o channels.elf channels.c`.
 *
 * Its argument data is a map. `pipe` has how often 65,536 bytes are written to a pipe and read from it; `bytes` how often one byte is; `sends` how often
 * one byte is sent with a descriptor, and the first that waits is received, with its descriptor, which is closed; `closes` how often a pipe is made and its
 * two ends are closed. Before that so many ends of `others` pipes are opened, and so many `waiting` sends stand in the channel, of a byte each, with a
 * descriptor where `sends` are asked.
 */
#include "argdata.h"

#define PIECE 65536

static unsigned char bytes[PIECE];
static cloudabi_fd_t ends[2];

static void demand(bool is_so)
{
    if (!is_so)
        cloudabi_sys_proc_exit(1);
}

static void write_piece(size_t length)
{
    cloudabi_iovec_t range = {bytes, length};
    size_t count;
    demand(cloudabi_sys_fd_write(ends[1], &range, 1, &count) == CLOUDABI_ESUCCESS && count == length);
}

static void read_piece(size_t length)
{
    cloudabi_iovec_t range = {bytes, length};
    size_t count;
    demand(cloudabi_sys_fd_read(ends[0], &range, 1, &count) == CLOUDABI_ESUCCESS && count == length);
}

static void send_one(void)
{
    static cloudabi_fd_t sent[1] = {0};
    cloudabi_iovec_t range = {bytes, 1};
    cloudabi_send_in_t in = {&range, 1, sent, 1, 0};
    cloudabi_send_out_t out;
    demand(cloudabi_sys_sock_send(ends[1], &in, &out) == CLOUDABI_ESUCCESS && out.datalen == 1);
}

static void receive_one(void)
{
    cloudabi_fd_t received[1];
    cloudabi_iovec_t range = {bytes, 1};
    cloudabi_recv_in_t in = {&range, 1, received, 1, 0};
    cloudabi_recv_out_t out;
    demand(cloudabi_sys_sock_recv(ends[0], &in, &out) == CLOUDABI_ESUCCESS && out.datalen == 1 && out.fdslen == 1);
    demand(cloudabi_sys_fd_close(received[0]) == CLOUDABI_ESUCCESS);
}

static void make(uint32_t type, cloudabi_fd_t pair[2])
{
    demand(cloudabi_sys_fd_create2(type, &pair[0], &pair[1]) == CLOUDABI_ESUCCESS);
}

static void make_and_close(void)
{
    cloudabi_fd_t pair[2];
    make(CLOUDABI_FILETYPE_FIFO, pair);
    demand(cloudabi_sys_fd_close(pair[0]) == CLOUDABI_ESUCCESS && cloudabi_sys_fd_close(pair[1]) == CLOUDABI_ESUCCESS);
}

static int64_t number_of(const argdata_t *arguments, const char *key)
{
    argdata_t value;
    int64_t number;
    return argdata_map_find(arguments, key, &value) && argdata_get_int(&value, &number) ? number : 0;
}

void program_main(const argdata_t *arguments)
{
    int64_t sends = number_of(arguments, "sends"), waiting = number_of(arguments, "waiting"), closes = number_of(arguments, "closes");
    cloudabi_fd_t other[2];
    for (int64_t left = number_of(arguments, "others"); left > 0; left -= 2)
        make(CLOUDABI_FILETYPE_FIFO, other);
    if (closes == 0)
        make(sends > 0 ? CLOUDABI_FILETYPE_SOCKET_STREAM : CLOUDABI_FILETYPE_FIFO, ends);
    for (; waiting > 0; --waiting) {
        if (sends > 0)
            send_one();
        else
            write_piece(1);
    }
    for (; sends > 0; --sends) {
        send_one();
        receive_one();
    }
    for (int64_t left = number_of(arguments, "pipe"); left > 0; --left) {
        write_piece(PIECE);
        read_piece(PIECE);
    }
    for (int64_t left = number_of(arguments, "bytes"); left > 0; --left) {
        write_piece(1);
        read_piece(1);
    }
    for (; closes > 0; --closes)
        make_and_close();
}
