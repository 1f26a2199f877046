/* Sends an end of a pair of streams to the other one and closes it, which is read then: the end is held by the message in which it stands. */
#include "argdata.h"

void program_main(const argdata_t *arguments)
{
    cloudabi_fd_t one, other;
    char byte = 'x';
    size_t count;
    (void)arguments;
    if (cloudabi_sys_fd_create2(CLOUDABI_FILETYPE_SOCKET_STREAM, &one, &other) != CLOUDABI_ESUCCESS)
        cloudabi_sys_proc_exit(1);
    cloudabi_iovec_t range = {&byte, 1};
    cloudabi_send_in_t message = {&range, 1, &other, 1, 0};
    cloudabi_send_out_t sent;
    cloudabi_sys_sock_send(one, &message, &sent);
    cloudabi_sys_fd_close(other);
    cloudabi_sys_fd_read(one, &range, 1, &count);
    cloudabi_sys_proc_exit(2);
}
