/* Reading and writing of bytes, and offsets. */
#define _GNU_SOURCE
#include "ranges.h"

#include <errno.h>
#include <fcntl.h>
#include <limits.h>
#include <unistd.h>

static bool has_no_offset(uint8_t kind)
{
    return kind == CLOUDABI_FILETYPE_CHARACTER_DEVICE || is_end(kind);
}

/* A call that transfers bytes, at an offset where the call has one. */
typedef cloudabi_errno_t (*transfer_call)(cloudabi_fd_t fd, const cloudabi_iovec_t *ranges, size_t number, cloudabi_filesize_t offset, size_t *count);

static cloudabi_errno_t call_read(cloudabi_fd_t fd, const cloudabi_iovec_t *ranges, size_t number, cloudabi_filesize_t offset, size_t *count)
{
    (void)offset;
    return cloudabi_sys_fd_read(fd, ranges, number, count);
}

static cloudabi_errno_t call_write(cloudabi_fd_t fd, const cloudabi_iovec_t *ranges, size_t number, cloudabi_filesize_t offset, size_t *count)
{
    (void)offset;
    return cloudabi_sys_fd_write(fd, ranges, number, count);
}

static cloudabi_errno_t call_pread(cloudabi_fd_t fd, const cloudabi_iovec_t *ranges, size_t number, cloudabi_filesize_t offset, size_t *count)
{
    return cloudabi_sys_fd_pread(fd, ranges, number, offset, count);
}

static cloudabi_errno_t call_pwrite(cloudabi_fd_t fd, const cloudabi_iovec_t *ranges, size_t number, cloudabi_filesize_t offset, size_t *count)
{
    return cloudabi_sys_fd_pwrite(fd, ranges, number, offset, count);
}

/* What a directory refuses is EISDIR, what isn't open for this way EBADF, and what has no offset ESPIPE: none is a lack of rights. */
static int refused(int fd, cloudabi_errno_t error, cloudabi_rights_t way)
{
    cloudabi_fdstat_t status;
    if (error != CLOUDABI_ENOTCAPABLE || cloudabi_sys_fd_stat_get(descriptor(fd), &status) != CLOUDABI_ESUCCESS)
        return result(error);
    if (status.kind == CLOUDABI_FILETYPE_DIRECTORY)
        errno = EISDIR;
    else if (!(status.base & way))
        errno = EBADF;
    else
        errno = has_no_offset(status.kind) ? ESPIPE : EACCES;
    return -1;
}

/* Whether bytes that are left may come or go by a further call. A pipe or a socket that gave what waits would wait for more; one that had
   room for a part waits for the rest, and a file that has none says so. */
static bool goes_on(int fd, transfer_call call, bool is_short)
{
    if (call == call_read)
        return !is_short && !is_end(descriptor_kind(fd));
    return call == call_write || !is_short;
}

/* All that is asked, by as many calls as it takes. */
static ssize_t transfer(int fd, struct ranges ranges, cloudabi_filesize_t offset, transfer_call call)
{
    size_t done = 0, asked, count, number;
    do {
        asked = bytes_of_call(&ranges);
        const cloudabi_iovec_t *array = ranges_of_call(&ranges, &number);
        cloudabi_errno_t error = call(descriptor(fd), array, number, offset + done, &count);
        if (error != CLOUDABI_ESUCCESS)
            return done > 0 ? (ssize_t)done
                            : refused(fd, error, call == call_read || call == call_pread ? CLOUDABI_RIGHT_FD_READ : CLOUDABI_RIGHT_FD_WRITE);
        done += count;
        pass_ranges(&ranges, count);
    } while (bytes_of_call(&ranges) > 0 && goes_on(fd, call, count < asked));
    return (ssize_t)done;
}

static ssize_t transfer_one(int fd, const void *buffer, size_t size, off_t offset, transfer_call call)
{
    struct iovec range = {(void *)buffer, size < SSIZE_MAX ? size : SSIZE_MAX};
    return transfer(fd, (struct ranges){.left = &range, .count = 1}, (cloudabi_filesize_t)offset, call);
}

ssize_t read(int fd, void *buffer, size_t size)
{
    return transfer_one(fd, buffer, size, 0, call_read);
}

ssize_t write(int fd, const void *buffer, size_t size)
{
    return transfer_one(fd, buffer, size, 0, call_write);
}

static bool is_offset(off_t offset)
{
    if (offset < 0)
        errno = EINVAL;
    return offset >= 0;
}

ssize_t pread(int fd, void *buffer, size_t size, off_t offset)
{
    return is_offset(offset) ? transfer_one(fd, buffer, size, offset, call_pread) : -1;
}

ssize_t pwrite(int fd, const void *buffer, size_t size, off_t offset)
{
    return is_offset(offset) ? transfer_one(fd, buffer, size, offset, call_pwrite) : -1;
}

static ssize_t transfer_ranges(int fd, const struct iovec *ranges, int count, off_t offset, transfer_call call)
{
    if (count < 0 || count > IOV_MAX) {
        errno = EINVAL;
        return -1;
    }
    return transfer(fd, (struct ranges){.left = ranges, .count = (size_t)count}, (cloudabi_filesize_t)offset, call);
}

ssize_t readv(int fd, const struct iovec *ranges, int count)
{
    return transfer_ranges(fd, ranges, count, 0, call_read);
}

ssize_t writev(int fd, const struct iovec *ranges, int count)
{
    return transfer_ranges(fd, ranges, count, 0, call_write);
}

ssize_t preadv(int fd, const struct iovec *ranges, int count, off_t offset)
{
    return is_offset(offset) ? transfer_ranges(fd, ranges, count, offset, call_pread) : -1;
}

ssize_t pwritev(int fd, const struct iovec *ranges, int count, off_t offset)
{
    return is_offset(offset) ? transfer_ranges(fd, ranges, count, offset, call_pwrite) : -1;
}

/* A standard stream has no offset, nor has a pipe or a socket. */
off_t lseek(int fd, off_t offset, int whence)
{
    uint32_t from = whence == SEEK_SET ? CLOUDABI_WHENCE_SET : whence == SEEK_CUR ? CLOUDABI_WHENCE_CUR
                  : whence == SEEK_END ? CLOUDABI_WHENCE_END : 0;
    cloudabi_filesize_t place;
    cloudabi_fdstat_t status;
    cloudabi_fd_t file = descriptor(fd);
    if (result(cloudabi_sys_fd_stat_get(file, &status)) != 0)
        return -1;
    if (has_no_offset(status.kind)) {
        errno = ESPIPE;
        return -1;
    }
    return result(cloudabi_sys_fd_seek(file, offset, from, &place)) == 0 ? (off_t)place : -1;
}

int fsync(int fd)
{
    return result_of_file(fd, cloudabi_sys_fd_sync(descriptor(fd)), EINVAL);
}

int fdatasync(int fd)
{
    return result_of_file(fd, cloudabi_sys_fd_datasync(descriptor(fd)), EINVAL);
}

void sync(void)
{
}

int posix_fadvise(int fd, off_t offset, off_t length, int advice)
{
    (void)offset, (void)length, (void)advice;
    return descriptor(fd) == NO_DESCRIPTOR ? EBADF : 0;
}

int posix_fallocate(int fd, off_t offset, off_t length)
{
    int error = errno, found;
    if (offset < 0 || length <= 0)
        return EINVAL;
    int failed = result(cloudabi_sys_file_allocate(descriptor(fd), (cloudabi_filesize_t)offset, (cloudabi_filesize_t)length));
    found = failed ? errno : 0;
    errno = error;
    return found;
}
