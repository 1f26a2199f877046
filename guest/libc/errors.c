/* The sandbox's errors by the numbers of errno. */
#include "system.h"

#include <errno.h>

static const uint8_t errno_of[] = {
    [CLOUDABI_E2BIG] = E2BIG,       [CLOUDABI_EAGAIN] = EAGAIN,       [CLOUDABI_EBADF] = EBADF,
    [CLOUDABI_EDEADLK] = EDEADLK,   [CLOUDABI_EEXIST] = EEXIST,       [CLOUDABI_EFAULT] = EFAULT,
    [CLOUDABI_EFBIG] = EFBIG,       [CLOUDABI_EILSEQ] = EILSEQ,       [CLOUDABI_EINVAL] = EINVAL,
    [CLOUDABI_EISDIR] = EISDIR,     [CLOUDABI_ELOOP] = ELOOP,         [CLOUDABI_EMFILE] = EMFILE,
    [CLOUDABI_EMLINK] = EMLINK,     [CLOUDABI_ENAMETOOLONG] = ENAMETOOLONG,
    [CLOUDABI_ENOBUFS] = ENOBUFS,   [CLOUDABI_ENOENT] = ENOENT,       [CLOUDABI_ENOEXEC] = ENOEXEC,
    [CLOUDABI_ENOMEM] = ENOMEM,     [CLOUDABI_ENOSYS] = ENOSYS,       [CLOUDABI_ENOTDIR] = ENOTDIR,
    [CLOUDABI_ENOTEMPTY] = ENOTEMPTY, [CLOUDABI_ENOTSOCK] = ENOTSOCK, [CLOUDABI_ENOTSUP] = ENOTSUP,
    [CLOUDABI_EPERM] = EPERM,       [CLOUDABI_EPIPE] = EPIPE,         [CLOUDABI_ETIMEDOUT] = ETIMEDOUT,
    [CLOUDABI_ENOTCAPABLE] = EACCES,
};

int error_number(cloudabi_errno_t error)
{
    if (error == CLOUDABI_ESUCCESS)
        return 0;
    return error < sizeof errno_of && errno_of[error] != 0 ? errno_of[error] : EIO;
}

void set_errno(cloudabi_errno_t error)
{
    errno = error_number(error);
}
