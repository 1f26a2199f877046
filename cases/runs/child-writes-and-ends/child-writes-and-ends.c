/* A child writes a byte to a pipe and exits with 3. Its parent reads the byte, waits for the end, and exits with 0 where all is as it should be. */
#include "argdata.h"

static void expect(bool is_so)
{
    if (!is_so)
        cloudabi_sys_proc_exit(1);
}

void program_main(const argdata_t *arguments)
{
    cloudabi_fd_t reading, writing, child;
    cloudabi_tid_t thread;
    cloudabi_event_t event = {0};
    char byte = 'x';
    cloudabi_iovec_t range = {&byte, 1};
    size_t count = 0;
    (void)arguments;
    expect(cloudabi_sys_fd_create2(CLOUDABI_FILETYPE_FIFO, &reading, &writing) == CLOUDABI_ESUCCESS);
    expect(cloudabi_sys_proc_fork(&child, &thread) == CLOUDABI_ESUCCESS);
    if (child == CLOUDABI_PROCESS_CHILD) {
        cloudabi_sys_fd_write(writing, &range, 1, &count);
        cloudabi_sys_proc_exit(3);
    }
    byte = 0;
    expect(cloudabi_sys_fd_read(reading, &range, 1, &count) == CLOUDABI_ESUCCESS && count == 1 && byte == 'x');
    cloudabi_subscription_t subscription = {.userdata = 8, .kind = CLOUDABI_EVENTTYPE_PROC_TERMINATE};
    subscription.proc_terminate.fd = child;
    expect(cloudabi_sys_poll(&subscription, &event, 1, &count) == CLOUDABI_ESUCCESS && count == 1);
    expect(event.userdata == 8 && event.error == CLOUDABI_ESUCCESS && event.kind == CLOUDABI_EVENTTYPE_PROC_TERMINATE);
    expect(event.proc_terminate.signal == 0 && event.proc_terminate.code == 3);
}
