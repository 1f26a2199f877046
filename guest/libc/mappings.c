/* Mappings of memory and of files, and sbrk. */
#define _GNU_SOURCE
#include "system.h"

#include <errno.h>
#include <fcntl.h>
#include <string.h>
#include <sys/mman.h>
#include <unistd.h>

#define BREAK ((char *)0x1800000000) /* above what malloc has, and below where mem_map looks for room */
#define BREAK_STEP (16 * PAGE)

static uint32_t protection_of(int protection)
{
    return (protection & PROT_READ ? CLOUDABI_PROT_READ : 0) | (protection & PROT_WRITE ? CLOUDABI_PROT_WRITE : 0)
         | (protection & PROT_EXEC ? CLOUDABI_PROT_EXEC : 0);
}

/* A mapping of a file is a copy of it. So one that is shared can only be read. Memory is no one else's, and so may be shared. */
void *mmap(void *address, size_t length, int protection, int flags, int fd, off_t offset)
{
    void *memory = MAP_FAILED;
    bool is_anonymous = (flags & MAP_ANONYMOUS) != 0;
    if (!is_anonymous && (flags & MAP_SHARED) && (protection & PROT_WRITE)) {
        errno = ENODEV;
        return MAP_FAILED;
    }
    if (!(flags & (MAP_SHARED | MAP_PRIVATE)) || offset < 0) {
        errno = EINVAL;
        return MAP_FAILED;
    }
    uint32_t how = CLOUDABI_MAP_PRIVATE | (is_anonymous ? CLOUDABI_MAP_ANON : 0) | (flags & MAP_FIXED ? CLOUDABI_MAP_FIXED : 0);
    cloudabi_errno_t error = cloudabi_sys_mem_map(address, length, protection_of(protection), how, is_anonymous ? 0 : descriptor(fd),
                                                  is_anonymous ? 0 : (cloudabi_filesize_t)offset, &memory);
    if (error == CLOUDABI_ENOBUFS)
        error = CLOUDABI_ENOMEM;
    return (is_anonymous ? result(error) : result_of_file(fd, error, ENODEV)) == 0 ? memory : MAP_FAILED;
}

int munmap(void *address, size_t length)
{
    return result(cloudabi_sys_mem_unmap(address, length));
}

/* A mapping that grows gets another place, since what is behind it isn't known. Its pages can be read and written then. */
void *mremap(void *address, size_t before, size_t length, int flags, ...)
{
    size_t kept = (length + PAGE - 1) / PAGE * PAGE, had = (before + PAGE - 1) / PAGE * PAGE;
    if (length == 0 || (flags & ~MREMAP_MAYMOVE) != 0) {
        errno = EINVAL;
        return MAP_FAILED;
    }
    if (kept <= had)
        return kept == had || munmap((char *)address + kept, had - kept) == 0 ? address : MAP_FAILED;
    if (!(flags & MREMAP_MAYMOVE)) {
        errno = ENOMEM;
        return MAP_FAILED;
    }
    void *moved = mmap(NULL, length, PROT_READ | PROT_WRITE, MAP_PRIVATE | MAP_ANONYMOUS, -1, 0);
    if (moved == MAP_FAILED)
        return MAP_FAILED;
    memcpy(moved, address, had);
    munmap(address, had);
    return moved;
}

int mprotect(void *address, size_t length, int protection)
{
    cloudabi_errno_t error = cloudabi_sys_mem_protect(address, length, protection_of(protection));
    return result(error == CLOUDABI_EFAULT ? CLOUDABI_ENOMEM : error);
}

int msync(void *address, size_t length, int flags)
{
    uint32_t how = (flags & MS_ASYNC ? CLOUDABI_MS_ASYNC : 0) | (flags & MS_SYNC ? CLOUDABI_MS_SYNC : 0)
                 | (flags & MS_INVALIDATE ? CLOUDABI_MS_INVALIDATE : 0);
    cloudabi_errno_t error = cloudabi_sys_mem_sync(address, length, how);
    return result(error == CLOUDABI_EFAULT ? CLOUDABI_ENOMEM : error);
}

int madvise(void *address, size_t length, int advice)
{
    (void)address, (void)length, (void)advice;
    return 0;
}

int posix_madvise(void *address, size_t length, int advice)
{
    return madvise(address, length, advice);
}

/* All memory stays where it is. */

int mlock(const void *address, size_t length)
{
    (void)address, (void)length;
    return 0;
}

int munlock(const void *address, size_t length)
{
    return mlock(address, length);
}

/* Pages are mapped as the break grows, and kept when it shrinks. */
void *sbrk(ptrdiff_t change)
{
    static char *top = BREAK, *mapped = BREAK;
    char *old = top;
    if (change < BREAK - top) {
        errno = EINVAL;
        return (void *)-1;
    }
    if (change > mapped - top) {
        size_t length = ((size_t)(change - (mapped - top)) + BREAK_STEP - 1) / BREAK_STEP * BREAK_STEP;
        void *memory;
        if (cloudabi_sys_mem_map(mapped, length, CLOUDABI_PROT_READ | CLOUDABI_PROT_WRITE,
                                 CLOUDABI_MAP_ANON | CLOUDABI_MAP_FIXED | CLOUDABI_MAP_PRIVATE, 0, 0, &memory)
            != CLOUDABI_ESUCCESS) {
            errno = ENOMEM;
            return (void *)-1;
        }
        mapped += length;
    }
    top += change;
    return old;
}
