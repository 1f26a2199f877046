/* What is known of files: stat and its kin, access, times, modes and sizes. */
#define _GNU_SOURCE
#include "system.h"

#include <errno.h>
#include <fcntl.h>
#include <string.h>
#include <sys/stat.h>
#include <sys/statvfs.h>
#include <sys/time.h>
#include <unistd.h>
#include <utime.h>

#define NANOSECONDS 1000000000

static struct timespec time_of(cloudabi_timestamp_t nanoseconds)
{
    return (struct timespec){.tv_sec = nanoseconds / NANOSECONDS, .tv_nsec = nanoseconds % NANOSECONDS};
}

static mode_t mode_of(uint8_t kind)
{
    switch (kind) {
    case CLOUDABI_FILETYPE_DIRECTORY: return S_IFDIR | S_IRWXU;
    case CLOUDABI_FILETYPE_REGULAR_FILE: return S_IFREG | S_IRUSR | S_IWUSR;
    case CLOUDABI_FILETYPE_SYMBOLIC_LINK: return S_IFLNK | S_IRWXU;
    case CLOUDABI_FILETYPE_CHARACTER_DEVICE: return S_IFCHR | S_IRUSR | S_IWUSR;
    case CLOUDABI_FILETYPE_FIFO: return S_IFIFO | S_IRUSR | S_IWUSR;
    case CLOUDABI_FILETYPE_SOCKET_STREAM: case CLOUDABI_FILETYPE_SOCKET_DGRAM: return S_IFSOCK | S_IRWXU;
    default: return S_IRUSR | S_IWUSR;
    }
}

static void tell(struct stat *status, const cloudabi_filestat_t *file)
{
    *status = (struct stat){
        .st_ino = file->ino,
        .st_mode = mode_of(file->kind),
        .st_nlink = (nlink_t)file->nlink,
        .st_uid = getuid(),
        .st_gid = getgid(),
        .st_size = (off_t)file->size,
        .st_blksize = PAGE,
        .st_blocks = (blkcnt_t)((file->size + 511) / 512),
        .st_atim = time_of(file->atim),
        .st_mtim = time_of(file->mtim),
        .st_ctim = time_of(file->ctim),
    };
}

int fstat(int fd, struct stat *status)
{
    cloudabi_filestat_t file;
    if (result(cloudabi_sys_file_stat_fget(descriptor(fd), &file)) != 0)
        return -1;
    tell(status, &file);
    return 0;
}

int fstatat(int directory, const char *restrict path, struct stat *restrict status, int flags)
{
    struct place place;
    cloudabi_filestat_t file;
    if ((flags & AT_EMPTY_PATH) && *path == '\0')
        return fstat(directory, status);
    cloudabi_errno_t error = find_place_at(directory, path, &place);
    if (error == CLOUDABI_ESUCCESS)
        error = cloudabi_sys_file_stat_get(lookup_of(&place, !(flags & AT_SYMLINK_NOFOLLOW)), place.path, strlen(place.path), &file);
    if (result(error) != 0)
        return -1;
    tell(status, &file);
    return 0;
}

int stat(const char *restrict path, struct stat *restrict status)
{
    return fstatat(AT_FDCWD, path, status, 0);
}

int lstat(const char *restrict path, struct stat *restrict status)
{
    return fstatat(AT_FDCWD, path, status, AT_SYMLINK_NOFOLLOW);
}

/* Whether what is at the place may be read, written or executed, by the rights that its directory hands on. Nothing is executable but
   that a directory may be searched. */
int faccessat(int directory, const char *path, int mode, int flags)
{
    struct place place;
    struct stat status;
    cloudabi_fdstat_t above;
    if (fstatat(directory, path, &status, flags & AT_SYMLINK_NOFOLLOW) != 0)
        return -1;
    cloudabi_errno_t error = find_place_at(directory, path, &place);
    if (error == CLOUDABI_ESUCCESS)
        error = cloudabi_sys_fd_stat_get(place.directory, &above);
    if (result(error) != 0)
        return -1;
    bool is_directory = S_ISDIR(status.st_mode);
    cloudabi_rights_t reads = is_directory ? CLOUDABI_RIGHT_FILE_READDIR : CLOUDABI_RIGHT_FD_READ;
    cloudabi_rights_t writes = is_directory ? CLOUDABI_RIGHT_FILE_CREATE_FILE : CLOUDABI_RIGHT_FD_WRITE;
    if (((mode & R_OK) && !(above.inheriting & reads)) || ((mode & W_OK) && !(above.inheriting & writes))
        || ((mode & X_OK) && !is_directory)) {
        errno = EACCES;
        return -1;
    }
    return 0;
}

int access(const char *path, int mode)
{
    return faccessat(AT_FDCWD, path, mode, 0);
}

int euidaccess(const char *path, int mode)
{
    return access(path, mode);
}

int eaccess(const char *path, int mode)
{
    return access(path, mode);
}

/* Files have no modes and no owners: it is enough that they are there. */

int fchmodat(int directory, const char *path, mode_t mode, int flags)
{
    struct stat status;
    (void)mode;
    return fstatat(directory, path, &status, flags);
}

int chmod(const char *path, mode_t mode)
{
    return fchmodat(AT_FDCWD, path, mode, 0);
}

int lchmod(const char *path, mode_t mode)
{
    return fchmodat(AT_FDCWD, path, mode, AT_SYMLINK_NOFOLLOW);
}

int fchmod(int fd, mode_t mode)
{
    cloudabi_fdstat_t status;
    (void)mode;
    return result(cloudabi_sys_fd_stat_get(descriptor(fd), &status));
}

int fchownat(int directory, const char *path, uid_t user, gid_t group, int flags)
{
    struct stat status;
    (void)user, (void)group;
    return fstatat(directory, path, &status, flags);
}

int chown(const char *path, uid_t user, gid_t group)
{
    return fchownat(AT_FDCWD, path, user, group, 0);
}

int lchown(const char *path, uid_t user, gid_t group)
{
    return fchownat(AT_FDCWD, path, user, group, AT_SYMLINK_NOFOLLOW);
}

int fchown(int fd, uid_t user, gid_t group)
{
    (void)user, (void)group;
    return fchmod(fd, 0);
}

mode_t umask(mode_t mask)
{
    static mode_t now = S_IWGRP | S_IWOTH;
    mode_t before = now;
    now = mask & 0777;
    return before;
}

/* Times. */

/* The times and flags of a call; false where there is nothing to set. A NULL is now. */
static bool take_times(const struct timespec times[2], cloudabi_filestat_t *file, uint32_t *flags)
{
    *file = (cloudabi_filestat_t){0};
    *flags = 0;
    if (times == NULL) {
        *flags = CLOUDABI_FILESTAT_ATIM_NOW | CLOUDABI_FILESTAT_MTIM_NOW;
        return true;
    }
    if (times[0].tv_nsec == UTIME_NOW)
        *flags |= CLOUDABI_FILESTAT_ATIM_NOW;
    else if (times[0].tv_nsec != UTIME_OMIT)
        *flags |= CLOUDABI_FILESTAT_ATIM;
    if (times[1].tv_nsec == UTIME_NOW)
        *flags |= CLOUDABI_FILESTAT_MTIM_NOW;
    else if (times[1].tv_nsec != UTIME_OMIT)
        *flags |= CLOUDABI_FILESTAT_MTIM;
    file->atim = (cloudabi_timestamp_t)times[0].tv_sec * NANOSECONDS + (cloudabi_timestamp_t)times[0].tv_nsec;
    file->mtim = (cloudabi_timestamp_t)times[1].tv_sec * NANOSECONDS + (cloudabi_timestamp_t)times[1].tv_nsec;
    return *flags != 0;
}

static bool are_times(const struct timespec times[2])
{
    for (int at = 0; times != NULL && at < 2; ++at) {
        long nanoseconds = times[at].tv_nsec;
        if (nanoseconds != UTIME_NOW && nanoseconds != UTIME_OMIT && (nanoseconds < 0 || nanoseconds >= NANOSECONDS)) {
            errno = EINVAL;
            return false;
        }
    }
    return true;
}

int utimensat(int directory, const char *path, const struct timespec times[2], int flags)
{
    struct place place;
    struct stat status;
    cloudabi_filestat_t file;
    uint32_t which;
    if (!are_times(times))
        return -1;
    if (!take_times(times, &file, &which))
        return fstatat(directory, path, &status, flags);
    cloudabi_errno_t error = find_place_at(directory, path, &place);
    if (error == CLOUDABI_ESUCCESS)
        error = cloudabi_sys_file_stat_put(lookup_of(&place, !(flags & AT_SYMLINK_NOFOLLOW)), place.path, strlen(place.path), &file, which);
    return result(error);
}

int futimens(int fd, const struct timespec times[2])
{
    cloudabi_filestat_t file;
    uint32_t which;
    if (!are_times(times))
        return -1;
    if (!take_times(times, &file, &which))
        return fchmod(fd, 0);
    return result(cloudabi_sys_file_stat_fput(descriptor(fd), &file, which));
}

/* The times of utimes as those of utimensat. */
static const struct timespec *precise(const struct timeval times[2], struct timespec to[2])
{
    if (times == NULL)
        return NULL;
    for (int at = 0; at < 2; ++at)
        to[at] = (struct timespec){times[at].tv_sec, times[at].tv_usec * 1000};
    return to;
}

int utimes(const char *path, const struct timeval times[2])
{
    struct timespec both[2];
    return utimensat(AT_FDCWD, path, precise(times, both), 0);
}

int lutimes(const char *path, const struct timeval times[2])
{
    struct timespec both[2];
    return utimensat(AT_FDCWD, path, precise(times, both), AT_SYMLINK_NOFOLLOW);
}

int futimes(int fd, const struct timeval times[2])
{
    struct timespec both[2];
    return futimens(fd, precise(times, both));
}

int utime(const char *path, const struct utimbuf *times)
{
    if (times == NULL)
        return utimensat(AT_FDCWD, path, NULL, 0);
    struct timespec both[2] = {{.tv_sec = times->actime}, {.tv_sec = times->modtime}};
    return utimensat(AT_FDCWD, path, both, 0);
}

/* Sizes. */

int ftruncate(int fd, off_t length)
{
    cloudabi_filestat_t file = {.size = (cloudabi_filesize_t)length};
    if (length < 0) {
        errno = EINVAL;
        return -1;
    }
    return result_of_file(fd, cloudabi_sys_file_stat_fput(descriptor(fd), &file, CLOUDABI_FILESTAT_SIZE), EINVAL);
}

int truncate(const char *path, off_t length)
{
    int fd = open(path, O_WRONLY);
    if (fd < 0)
        return -1;
    int failed = ftruncate(fd, length), error = errno;
    close(fd);
    errno = error;
    return failed;
}

/* The tree has no size of its own: a file may have 64 MiB. */
static int tell_file_system(struct statvfs *status)
{
    *status = (struct statvfs){.f_bsize = PAGE, .f_frsize = PAGE, .f_blocks = 1 << 14, .f_bfree = 1 << 14, .f_bavail = 1 << 14,
                               .f_files = 1 << 20, .f_ffree = 1 << 20, .f_favail = 1 << 20, .f_namemax = 255};
    return 0;
}

int statvfs(const char *restrict path, struct statvfs *restrict status)
{
    struct stat file;
    return stat(path, &file) == 0 ? tell_file_system(status) : -1;
}

int fstatvfs(int fd, struct statvfs *status)
{
    return fchmod(fd, 0) == 0 ? tell_file_system(status) : -1;
}
