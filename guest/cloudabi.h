/*
 * The system calls of the sandbox for programs in C: numbers, structures, and a function for each of the 49 calls. docs/ABI.md
 * says what each does; `guest/check-header` compares this text with its tables.
 *
 * Each function returns an error, CLOUDABI_ESUCCESS among them, and gives its results through pointers, which are written on
 * success only. Times are in nanoseconds. Lengths of texts and paths are in bytes, without a zero byte at the end.
 */
#ifndef CLOUDABI_H
#define CLOUDABI_H

#include <stddef.h>
#include <stdint.h>

/* Errors. */
#define CLOUDABI_ESUCCESS      0
#define CLOUDABI_E2BIG         1
#define CLOUDABI_EAGAIN        6
#define CLOUDABI_EBADF         8
#define CLOUDABI_EDEADLK       16
#define CLOUDABI_EEXIST        20
#define CLOUDABI_EFAULT        21
#define CLOUDABI_EFBIG         22
#define CLOUDABI_EILSEQ        25
#define CLOUDABI_EINVAL        28
#define CLOUDABI_EISDIR        31
#define CLOUDABI_ELOOP         32
#define CLOUDABI_EMFILE        33
#define CLOUDABI_EMLINK        34
#define CLOUDABI_EMSGSIZE      35
#define CLOUDABI_ENAMETOOLONG  37
#define CLOUDABI_ENOBUFS       42
#define CLOUDABI_ENOENT        44
#define CLOUDABI_ENOEXEC       45
#define CLOUDABI_ENOMEM        48
#define CLOUDABI_ENOSYS        52
#define CLOUDABI_ENOTDIR       54
#define CLOUDABI_ENOTEMPTY     55
#define CLOUDABI_ENOTSOCK      57
#define CLOUDABI_ENOTSUP       58
#define CLOUDABI_EPERM         63
#define CLOUDABI_EPIPE         64
#define CLOUDABI_ETIMEDOUT     73
#define CLOUDABI_ENOTCAPABLE   76

/* Signals. */
#define CLOUDABI_SIGABRT    1
#define CLOUDABI_SIGALRM    2
#define CLOUDABI_SIGBUS     3
#define CLOUDABI_SIGCHLD    4
#define CLOUDABI_SIGCONT    5
#define CLOUDABI_SIGFPE     6
#define CLOUDABI_SIGHUP     7
#define CLOUDABI_SIGILL     8
#define CLOUDABI_SIGINT     9
#define CLOUDABI_SIGKILL    10
#define CLOUDABI_SIGPIPE    11
#define CLOUDABI_SIGQUIT    12
#define CLOUDABI_SIGSEGV    13
#define CLOUDABI_SIGSTOP    14
#define CLOUDABI_SIGSYS     15
#define CLOUDABI_SIGTERM    16
#define CLOUDABI_SIGTRAP    17
#define CLOUDABI_SIGTSTP    18
#define CLOUDABI_SIGTTIN    19
#define CLOUDABI_SIGTTOU    20
#define CLOUDABI_SIGURG     21
#define CLOUDABI_SIGUSR1    22
#define CLOUDABI_SIGUSR2    23
#define CLOUDABI_SIGVTALRM  24
#define CLOUDABI_SIGXCPU    25
#define CLOUDABI_SIGXFSZ    26

/* Rights. */
#define CLOUDABI_RIGHT_FD_DATASYNC            (UINT64_C(1) << 0)
#define CLOUDABI_RIGHT_FD_READ                (UINT64_C(1) << 1)
#define CLOUDABI_RIGHT_FD_SEEK                (UINT64_C(1) << 2)
#define CLOUDABI_RIGHT_FD_STAT_PUT_FLAGS      (UINT64_C(1) << 3)
#define CLOUDABI_RIGHT_FD_SYNC                (UINT64_C(1) << 4)
#define CLOUDABI_RIGHT_FD_TELL                (UINT64_C(1) << 5)
#define CLOUDABI_RIGHT_FD_WRITE               (UINT64_C(1) << 6)
#define CLOUDABI_RIGHT_FILE_ADVISE            (UINT64_C(1) << 7)
#define CLOUDABI_RIGHT_FILE_ALLOCATE          (UINT64_C(1) << 8)
#define CLOUDABI_RIGHT_FILE_CREATE_DIRECTORY  (UINT64_C(1) << 9)
#define CLOUDABI_RIGHT_FILE_CREATE_FILE       (UINT64_C(1) << 10)
#define CLOUDABI_RIGHT_FILE_LINK_SOURCE       (UINT64_C(1) << 12)
#define CLOUDABI_RIGHT_FILE_LINK_TARGET       (UINT64_C(1) << 13)
#define CLOUDABI_RIGHT_FILE_OPEN              (UINT64_C(1) << 14)
#define CLOUDABI_RIGHT_FILE_READDIR           (UINT64_C(1) << 15)
#define CLOUDABI_RIGHT_FILE_READLINK          (UINT64_C(1) << 16)
#define CLOUDABI_RIGHT_FILE_RENAME_SOURCE     (UINT64_C(1) << 17)
#define CLOUDABI_RIGHT_FILE_RENAME_TARGET     (UINT64_C(1) << 18)
#define CLOUDABI_RIGHT_FILE_STAT_FGET         (UINT64_C(1) << 19)
#define CLOUDABI_RIGHT_FILE_STAT_FPUT_SIZE    (UINT64_C(1) << 20)
#define CLOUDABI_RIGHT_FILE_STAT_FPUT_TIMES   (UINT64_C(1) << 21)
#define CLOUDABI_RIGHT_FILE_STAT_GET          (UINT64_C(1) << 22)
#define CLOUDABI_RIGHT_FILE_STAT_PUT_TIMES    (UINT64_C(1) << 23)
#define CLOUDABI_RIGHT_FILE_SYMLINK           (UINT64_C(1) << 24)
#define CLOUDABI_RIGHT_FILE_UNLINK            (UINT64_C(1) << 25)
#define CLOUDABI_RIGHT_MEM_MAP                (UINT64_C(1) << 26)
#define CLOUDABI_RIGHT_MEM_MAP_EXEC           (UINT64_C(1) << 27)
#define CLOUDABI_RIGHT_POLL_FD_READWRITE      (UINT64_C(1) << 28)
#define CLOUDABI_RIGHT_POLL_PROC_TERMINATE    (UINT64_C(1) << 30)
#define CLOUDABI_RIGHT_PROC_EXEC              (UINT64_C(1) << 32)
#define CLOUDABI_RIGHT_SOCK_SHUTDOWN          (UINT64_C(1) << 39)

/* All base rights that a descriptor of a type may have, and all inheriting rights of a directory's. */
#define CLOUDABI_RIGHTS_READING     UINT64_C(0x1008000a)
#define CLOUDABI_RIGHTS_WRITING     UINT64_C(0x10080048)
#define CLOUDABI_RIGHTS_STREAM      UINT64_C(0x801008004a)
#define CLOUDABI_RIGHTS_FILE        UINT64_C(0x11c3801ff)
#define CLOUDABI_RIGHTS_DIRECTORY   UINT64_C(0x3eff619)
#define CLOUDABI_RIGHTS_PROCESS     UINT64_C(0x40080000)
#define CLOUDABI_RIGHTS_INHERITING  UINT64_C(0x11ffff7ff)

/* Types of files. */
#define CLOUDABI_FILETYPE_CHARACTER_DEVICE  17
#define CLOUDABI_FILETYPE_DIRECTORY         32
#define CLOUDABI_FILETYPE_FIFO              48
#define CLOUDABI_FILETYPE_PROCESS           80
#define CLOUDABI_FILETYPE_REGULAR_FILE      96
#define CLOUDABI_FILETYPE_SHARED_MEMORY     112
#define CLOUDABI_FILETYPE_SOCKET_DGRAM      128
#define CLOUDABI_FILETYPE_SOCKET_STREAM     130
#define CLOUDABI_FILETYPE_SYMBOLIC_LINK     144

/* Flags. */
#define CLOUDABI_FDFLAG_APPEND               1
#define CLOUDABI_FDFLAG_DSYNC                2
#define CLOUDABI_FDFLAG_NONBLOCK             4
#define CLOUDABI_FDFLAG_RSYNC                8
#define CLOUDABI_FDFLAG_SYNC                 16
#define CLOUDABI_LOOKUP_SYMLINK_FOLLOW       1
#define CLOUDABI_O_CREAT                     1
#define CLOUDABI_O_DIRECTORY                 2
#define CLOUDABI_O_EXCL                      4
#define CLOUDABI_O_TRUNC                     8
#define CLOUDABI_FDSTAT_FLAGS                1
#define CLOUDABI_FDSTAT_RIGHTS               2
#define CLOUDABI_FILESTAT_ATIM               1
#define CLOUDABI_FILESTAT_ATIM_NOW           2
#define CLOUDABI_FILESTAT_MTIM               4
#define CLOUDABI_FILESTAT_MTIM_NOW           8
#define CLOUDABI_FILESTAT_SIZE               16
#define CLOUDABI_UNLINK_REMOVEDIR            1
#define CLOUDABI_PROT_EXEC                   1
#define CLOUDABI_PROT_WRITE                  2
#define CLOUDABI_PROT_READ                   4
#define CLOUDABI_MAP_ANON                    1
#define CLOUDABI_MAP_FIXED                   2
#define CLOUDABI_MAP_PRIVATE                 4
#define CLOUDABI_MAP_SHARED                  8
#define CLOUDABI_MS_ASYNC                    1
#define CLOUDABI_MS_INVALIDATE               2
#define CLOUDABI_MS_SYNC                     4
#define CLOUDABI_SUBSCRIPTION_CLOCK_ABSTIME  1
#define CLOUDABI_EVENT_FD_READWRITE_HANGUP   1
#define CLOUDABI_SOCK_RECV_PEEK              4
#define CLOUDABI_SOCK_RECV_WAITALL           16
#define CLOUDABI_SOCK_RECV_FDS_TRUNCATED     1
#define CLOUDABI_SOCK_RECV_DATA_TRUNCATED    8
#define CLOUDABI_SHUT_RD                     1
#define CLOUDABI_SHUT_WR                     2

/* Further numbers: where a seek counts from, clocks, and the scope of locks and condition variables. */
#define CLOUDABI_WHENCE_CUR       1
#define CLOUDABI_WHENCE_END       2
#define CLOUDABI_WHENCE_SET       3
#define CLOUDABI_CLOCK_MONOTONIC  1
#define CLOUDABI_CLOCK_REALTIME   3
#define CLOUDABI_SCOPE_PRIVATE    4
#define CLOUDABI_SCOPE_SHARED     8

/* Types of events. */
#define CLOUDABI_EVENTTYPE_CLOCK           1
#define CLOUDABI_EVENTTYPE_CONDVAR         2
#define CLOUDABI_EVENTTYPE_FD_READ         3
#define CLOUDABI_EVENTTYPE_FD_WRITE        4
#define CLOUDABI_EVENTTYPE_LOCK_RDLOCK     5
#define CLOUDABI_EVENTTYPE_LOCK_WRLOCK     6
#define CLOUDABI_EVENTTYPE_PROC_TERMINATE  7

/* Entries of the vector that a program starts with. */
#define CLOUDABI_AT_NULL        0
#define CLOUDABI_AT_PHDR        3
#define CLOUDABI_AT_PHNUM       4
#define CLOUDABI_AT_PAGESZ      6
#define CLOUDABI_AT_BASE        7
#define CLOUDABI_AT_ARGDATA     256
#define CLOUDABI_AT_ARGDATALEN  257
#define CLOUDABI_AT_CANARY      258
#define CLOUDABI_AT_CANARYLEN   259
#define CLOUDABI_AT_NCPUS       260
#define CLOUDABI_AT_TID         261
#define CLOUDABI_AT_PID         263

/* What proc_fork gives in the child in place of a descriptor. */
#define CLOUDABI_PROCESS_CHILD  UINT32_C(0xffffffff)

typedef uint32_t cloudabi_errno_t;
typedef uint32_t cloudabi_fd_t;
typedef uint32_t cloudabi_tid_t;
typedef uint64_t cloudabi_rights_t;
typedef uint64_t cloudabi_timestamp_t;
typedef uint64_t cloudabi_filesize_t;
typedef uint64_t cloudabi_dircookie_t;

/* Where the walk of a path begins, and whether a symbolic link at its end is followed. */
typedef struct {
    cloudabi_fd_t fd;
    uint32_t flags;
} cloudabi_lookup_t;

/* Bytes that are read or written. */
typedef struct {
    const void *address;
    uint64_t length;
} cloudabi_iovec_t;

/* An entry of the vector that a program starts with. */
typedef struct {
    uint64_t number;
    uint64_t value;
} cloudabi_auxv_t;

typedef struct {
    uint8_t kind;
    uint16_t flags;
    cloudabi_rights_t base;
    cloudabi_rights_t inheriting;
} cloudabi_fdstat_t;

typedef struct {
    uint64_t dev;
    uint64_t ino;
    uint8_t kind;
    uint32_t nlink;
    cloudabi_filesize_t size;
    cloudabi_timestamp_t atim;
    cloudabi_timestamp_t mtim;
    cloudabi_timestamp_t ctim;
} cloudabi_filestat_t;

/* An entry of a directory; `namlen` bytes of its name stand behind it. */
typedef struct {
    cloudabi_dircookie_t next;
    uint64_t ino;
    uint32_t namlen;
    uint8_t kind;
} cloudabi_dirent_t;

/* `entry` is called as void entry(cloudabi_tid_t, void *argument), on a stack of its own. */
typedef struct {
    void *entry;
    void *stack;
    uint64_t stacklen;
    void *argument;
} cloudabi_threadattr_t;

typedef struct {
    const cloudabi_iovec_t *iovs;
    uint64_t iovs_count;
    cloudabi_fd_t *fds;
    uint64_t fds_count;
    uint16_t flags;
} cloudabi_recv_in_t;

typedef struct {
    uint64_t datalen;
    uint64_t fdslen;
    uint16_t flags;
} cloudabi_recv_out_t;

typedef struct {
    const cloudabi_iovec_t *iovs;
    uint64_t iovs_count;
    const cloudabi_fd_t *fds;
    uint64_t fds_count;
    uint16_t flags;
} cloudabi_send_in_t;

typedef struct {
    uint64_t datalen;
} cloudabi_send_out_t;

/* What poll waits for. The fields behind `kind` are those of its type. */
typedef struct {
    uint64_t userdata;
    uint8_t kind;
    union {
        struct {
            uint64_t unused;
            uint32_t clock;
            cloudabi_timestamp_t timeout;
            cloudabi_timestamp_t precision;
            uint16_t flags;
        } clock;
        struct {
            uint32_t *condvar;
            uint32_t *lock;
            uint8_t condvar_scope;
            uint8_t lock_scope;
        } condvar;
        struct {
            cloudabi_fd_t fd;
        } fd_readwrite;
        struct {
            uint32_t *lock;
            uint8_t scope;
        } lock;
        struct {
            cloudabi_fd_t fd;
        } proc_terminate;
    };
} cloudabi_subscription_t;

typedef struct {
    uint64_t userdata;
    uint16_t error;
    uint8_t kind;
    union {
        struct {
            uint64_t nbytes;
            uint16_t flags;
        } fd_readwrite;
        struct {
            uint8_t signal;
            uint32_t code;
        } proc_terminate;
    };
} cloudabi_event_t;

/* An answer: the error, and the results in a1 and a2. */
typedef struct {
    cloudabi_errno_t error;
    uint64_t first;
    uint64_t second;
} cloudabi_answer_t;

/* Makes a call: its number in a7, its arguments in a0 to a5. */
static inline cloudabi_answer_t cloudabi_call(uint64_t number, uint64_t a, uint64_t b, uint64_t c, uint64_t d, uint64_t e,
                                              uint64_t f)
{
    register uint64_t a0 __asm__("a0") = a;
    register uint64_t a1 __asm__("a1") = b;
    register uint64_t a2 __asm__("a2") = c;
    register uint64_t a3 __asm__("a3") = d;
    register uint64_t a4 __asm__("a4") = e;
    register uint64_t a5 __asm__("a5") = f;
    register uint64_t a7 __asm__("a7") = number;
    __asm__ volatile("ecall" : "+r"(a0), "+r"(a1), "+r"(a2) : "r"(a3), "r"(a4), "r"(a5), "r"(a7) : "memory");
    return (cloudabi_answer_t){(cloudabi_errno_t)a0, a1, a2};
}

/* The numbers that registers have for an address and for a lookup. */
#define CLOUDABI_ADDRESS(pointer) ((uint64_t)(uintptr_t)(pointer))
#define CLOUDABI_LOOKUP(lookup) ((uint64_t)(lookup).flags << 32 | (lookup).fd)

/* Clocks and random bytes. */

static inline cloudabi_errno_t cloudabi_sys_clock_res_get(uint32_t clock, cloudabi_timestamp_t *resolution)
{
    cloudabi_answer_t answer = cloudabi_call(0, clock, 0, 0, 0, 0, 0);
    if (answer.error == CLOUDABI_ESUCCESS)
        *resolution = answer.first;
    return answer.error;
}

static inline cloudabi_errno_t cloudabi_sys_clock_time_get(uint32_t clock, cloudabi_timestamp_t precision,
                                                           cloudabi_timestamp_t *time)
{
    cloudabi_answer_t answer = cloudabi_call(1, clock, precision, 0, 0, 0, 0);
    if (answer.error == CLOUDABI_ESUCCESS)
        *time = answer.first;
    return answer.error;
}

static inline cloudabi_errno_t cloudabi_sys_random_get(void *address, size_t length)
{
    return cloudabi_call(42, CLOUDABI_ADDRESS(address), length, 0, 0, 0, 0).error;
}

/* Locks and condition variables. */

static inline cloudabi_errno_t cloudabi_sys_condvar_signal(uint32_t *condvar, uint32_t scope, uint32_t n)
{
    return cloudabi_call(2, CLOUDABI_ADDRESS(condvar), scope, n, 0, 0, 0).error;
}

static inline cloudabi_errno_t cloudabi_sys_lock_unlock(uint32_t *lock, uint32_t scope)
{
    return cloudabi_call(31, CLOUDABI_ADDRESS(lock), scope, 0, 0, 0, 0).error;
}

/* Descriptors. */

static inline cloudabi_errno_t cloudabi_sys_fd_close(cloudabi_fd_t fd)
{
    return cloudabi_call(3, fd, 0, 0, 0, 0, 0).error;
}

static inline cloudabi_errno_t cloudabi_sys_fd_create1(uint32_t type, cloudabi_fd_t *fd)
{
    cloudabi_answer_t answer = cloudabi_call(4, type, 0, 0, 0, 0, 0);
    if (answer.error == CLOUDABI_ESUCCESS)
        *fd = (cloudabi_fd_t)answer.first;
    return answer.error;
}

/* A FIFO's reading end and its writing end, or the two ends of a pair of streams. */
static inline cloudabi_errno_t cloudabi_sys_fd_create2(uint32_t type, cloudabi_fd_t *fd1, cloudabi_fd_t *fd2)
{
    cloudabi_answer_t answer = cloudabi_call(5, type, 0, 0, 0, 0, 0);
    if (answer.error == CLOUDABI_ESUCCESS) {
        *fd1 = (cloudabi_fd_t)answer.first;
        *fd2 = (cloudabi_fd_t)answer.second;
    }
    return answer.error;
}

static inline cloudabi_errno_t cloudabi_sys_fd_datasync(cloudabi_fd_t fd)
{
    return cloudabi_call(6, fd, 0, 0, 0, 0, 0).error;
}

static inline cloudabi_errno_t cloudabi_sys_fd_dup(cloudabi_fd_t fd, cloudabi_fd_t *copy)
{
    cloudabi_answer_t answer = cloudabi_call(7, fd, 0, 0, 0, 0, 0);
    if (answer.error == CLOUDABI_ESUCCESS)
        *copy = (cloudabi_fd_t)answer.first;
    return answer.error;
}

static inline cloudabi_errno_t cloudabi_sys_fd_pread(cloudabi_fd_t fd, const cloudabi_iovec_t *iovs, size_t iovs_count,
                                                     cloudabi_filesize_t offset, size_t *count)
{
    cloudabi_answer_t answer = cloudabi_call(8, fd, CLOUDABI_ADDRESS(iovs), iovs_count, offset, 0, 0);
    if (answer.error == CLOUDABI_ESUCCESS)
        *count = answer.first;
    return answer.error;
}

static inline cloudabi_errno_t cloudabi_sys_fd_pwrite(cloudabi_fd_t fd, const cloudabi_iovec_t *iovs, size_t iovs_count,
                                                      cloudabi_filesize_t offset, size_t *count)
{
    cloudabi_answer_t answer = cloudabi_call(9, fd, CLOUDABI_ADDRESS(iovs), iovs_count, offset, 0, 0);
    if (answer.error == CLOUDABI_ESUCCESS)
        *count = answer.first;
    return answer.error;
}

static inline cloudabi_errno_t cloudabi_sys_fd_read(cloudabi_fd_t fd, const cloudabi_iovec_t *iovs, size_t iovs_count,
                                                    size_t *count)
{
    cloudabi_answer_t answer = cloudabi_call(10, fd, CLOUDABI_ADDRESS(iovs), iovs_count, 0, 0, 0);
    if (answer.error == CLOUDABI_ESUCCESS)
        *count = answer.first;
    return answer.error;
}

static inline cloudabi_errno_t cloudabi_sys_fd_replace(cloudabi_fd_t from, cloudabi_fd_t to)
{
    return cloudabi_call(11, from, to, 0, 0, 0, 0).error;
}

static inline cloudabi_errno_t cloudabi_sys_fd_seek(cloudabi_fd_t fd, int64_t offset, uint32_t whence,
                                                    cloudabi_filesize_t *place)
{
    cloudabi_answer_t answer = cloudabi_call(12, fd, (uint64_t)offset, whence, 0, 0, 0);
    if (answer.error == CLOUDABI_ESUCCESS)
        *place = answer.first;
    return answer.error;
}

static inline cloudabi_errno_t cloudabi_sys_fd_stat_get(cloudabi_fd_t fd, cloudabi_fdstat_t *address)
{
    return cloudabi_call(13, fd, CLOUDABI_ADDRESS(address), 0, 0, 0, 0).error;
}

static inline cloudabi_errno_t cloudabi_sys_fd_stat_put(cloudabi_fd_t fd, const cloudabi_fdstat_t *fdstat, uint32_t flags)
{
    return cloudabi_call(14, fd, CLOUDABI_ADDRESS(fdstat), flags, 0, 0, 0).error;
}

static inline cloudabi_errno_t cloudabi_sys_fd_sync(cloudabi_fd_t fd)
{
    return cloudabi_call(15, fd, 0, 0, 0, 0, 0).error;
}

static inline cloudabi_errno_t cloudabi_sys_fd_write(cloudabi_fd_t fd, const cloudabi_iovec_t *iovs, size_t iovs_count,
                                                     size_t *count)
{
    cloudabi_answer_t answer = cloudabi_call(16, fd, CLOUDABI_ADDRESS(iovs), iovs_count, 0, 0, 0);
    if (answer.error == CLOUDABI_ESUCCESS)
        *count = answer.first;
    return answer.error;
}

/* Files and directories. */

static inline cloudabi_errno_t cloudabi_sys_file_advise(cloudabi_fd_t fd, cloudabi_filesize_t offset,
                                                        cloudabi_filesize_t length, uint32_t advice)
{
    return cloudabi_call(17, fd, offset, length, advice, 0, 0).error;
}

static inline cloudabi_errno_t cloudabi_sys_file_allocate(cloudabi_fd_t fd, cloudabi_filesize_t offset,
                                                          cloudabi_filesize_t length)
{
    return cloudabi_call(18, fd, offset, length, 0, 0, 0).error;
}

/* Makes a directory: `type` is CLOUDABI_FILETYPE_DIRECTORY. */
static inline cloudabi_errno_t cloudabi_sys_file_create(cloudabi_fd_t fd, const char *path, size_t path_length, uint32_t type)
{
    return cloudabi_call(19, fd, CLOUDABI_ADDRESS(path), path_length, type, 0, 0).error;
}

static inline cloudabi_errno_t cloudabi_sys_file_link(cloudabi_lookup_t lookup, const char *path1, size_t path1_length,
                                                      cloudabi_fd_t fd, const char *path2, size_t path2_length)
{
    return cloudabi_call(20, CLOUDABI_LOOKUP(lookup), CLOUDABI_ADDRESS(path1), path1_length, fd, CLOUDABI_ADDRESS(path2),
                         path2_length).error;
}

static inline cloudabi_errno_t cloudabi_sys_file_open(cloudabi_lookup_t lookup, const char *path, size_t path_length,
                                                      uint32_t oflags, const cloudabi_fdstat_t *fdstat, cloudabi_fd_t *fd)
{
    cloudabi_answer_t answer = cloudabi_call(21, CLOUDABI_LOOKUP(lookup), CLOUDABI_ADDRESS(path), path_length, oflags,
                                             CLOUDABI_ADDRESS(fdstat), 0);
    if (answer.error == CLOUDABI_ESUCCESS)
        *fd = (cloudabi_fd_t)answer.first;
    return answer.error;
}

static inline cloudabi_errno_t cloudabi_sys_file_readdir(cloudabi_fd_t fd, void *address, size_t length,
                                                         cloudabi_dircookie_t cookie, size_t *count)
{
    cloudabi_answer_t answer = cloudabi_call(22, fd, CLOUDABI_ADDRESS(address), length, cookie, 0, 0);
    if (answer.error == CLOUDABI_ESUCCESS)
        *count = answer.first;
    return answer.error;
}

static inline cloudabi_errno_t cloudabi_sys_file_readlink(cloudabi_fd_t fd, const char *path, size_t path_length,
                                                          char *address, size_t length, size_t *count)
{
    cloudabi_answer_t answer = cloudabi_call(23, fd, CLOUDABI_ADDRESS(path), path_length, CLOUDABI_ADDRESS(address), length,
                                             0);
    if (answer.error == CLOUDABI_ESUCCESS)
        *count = answer.first;
    return answer.error;
}

static inline cloudabi_errno_t cloudabi_sys_file_rename(cloudabi_fd_t fd1, const char *path1, size_t path1_length,
                                                        cloudabi_fd_t fd2, const char *path2, size_t path2_length)
{
    return cloudabi_call(24, fd1, CLOUDABI_ADDRESS(path1), path1_length, fd2, CLOUDABI_ADDRESS(path2), path2_length).error;
}

static inline cloudabi_errno_t cloudabi_sys_file_stat_fget(cloudabi_fd_t fd, cloudabi_filestat_t *address)
{
    return cloudabi_call(25, fd, CLOUDABI_ADDRESS(address), 0, 0, 0, 0).error;
}

static inline cloudabi_errno_t cloudabi_sys_file_stat_fput(cloudabi_fd_t fd, const cloudabi_filestat_t *filestat,
                                                           uint32_t flags)
{
    return cloudabi_call(26, fd, CLOUDABI_ADDRESS(filestat), flags, 0, 0, 0).error;
}

static inline cloudabi_errno_t cloudabi_sys_file_stat_get(cloudabi_lookup_t lookup, const char *path, size_t path_length,
                                                          cloudabi_filestat_t *address)
{
    return cloudabi_call(27, CLOUDABI_LOOKUP(lookup), CLOUDABI_ADDRESS(path), path_length, CLOUDABI_ADDRESS(address), 0, 0)
        .error;
}

static inline cloudabi_errno_t cloudabi_sys_file_stat_put(cloudabi_lookup_t lookup, const char *path, size_t path_length,
                                                          const cloudabi_filestat_t *filestat, uint32_t flags)
{
    return cloudabi_call(28, CLOUDABI_LOOKUP(lookup), CLOUDABI_ADDRESS(path), path_length, CLOUDABI_ADDRESS(filestat), flags,
                         0).error;
}

static inline cloudabi_errno_t cloudabi_sys_file_symlink(const char *text, size_t text_length, cloudabi_fd_t fd,
                                                         const char *path, size_t path_length)
{
    return cloudabi_call(29, CLOUDABI_ADDRESS(text), text_length, fd, CLOUDABI_ADDRESS(path), path_length, 0).error;
}

static inline cloudabi_errno_t cloudabi_sys_file_unlink(cloudabi_fd_t fd, const char *path, size_t path_length, uint32_t flags)
{
    return cloudabi_call(30, fd, CLOUDABI_ADDRESS(path), path_length, flags, 0, 0).error;
}

/* Memory. */

static inline cloudabi_errno_t cloudabi_sys_mem_advise(void *address, size_t length, uint32_t advice)
{
    return cloudabi_call(32, CLOUDABI_ADDRESS(address), length, advice, 0, 0, 0).error;
}

static inline cloudabi_errno_t cloudabi_sys_mem_map(void *address, size_t length, uint32_t prot, uint32_t flags,
                                                    cloudabi_fd_t fd, cloudabi_filesize_t offset, void **memory)
{
    cloudabi_answer_t answer = cloudabi_call(33, CLOUDABI_ADDRESS(address), length, prot, flags, fd, offset);
    if (answer.error == CLOUDABI_ESUCCESS)
        *memory = (void *)(uintptr_t)answer.first;
    return answer.error;
}

static inline cloudabi_errno_t cloudabi_sys_mem_protect(void *address, size_t length, uint32_t prot)
{
    return cloudabi_call(34, CLOUDABI_ADDRESS(address), length, prot, 0, 0, 0).error;
}

static inline cloudabi_errno_t cloudabi_sys_mem_sync(void *address, size_t length, uint32_t flags)
{
    return cloudabi_call(35, CLOUDABI_ADDRESS(address), length, flags, 0, 0, 0).error;
}

static inline cloudabi_errno_t cloudabi_sys_mem_unmap(void *address, size_t length)
{
    return cloudabi_call(36, CLOUDABI_ADDRESS(address), length, 0, 0, 0, 0).error;
}

/* Waiting. There is room for as many events as there are subscriptions. */

static inline cloudabi_errno_t cloudabi_sys_poll(const cloudabi_subscription_t *subscriptions, cloudabi_event_t *address,
                                                 size_t count, size_t *events)
{
    cloudabi_answer_t answer = cloudabi_call(37, CLOUDABI_ADDRESS(subscriptions), CLOUDABI_ADDRESS(address), count, 0, 0, 0);
    if (answer.error == CLOUDABI_ESUCCESS)
        *events = answer.first;
    return answer.error;
}

/* Processes. */

/* Doesn't return where it succeeds: the process begins anew with the program that the descriptor is of. */
static inline cloudabi_errno_t cloudabi_sys_proc_exec(cloudabi_fd_t fd, const void *bytes, size_t bytes_length,
                                                      const cloudabi_fd_t *fds, size_t fds_count)
{
    return cloudabi_call(38, fd, CLOUDABI_ADDRESS(bytes), bytes_length, CLOUDABI_ADDRESS(fds), fds_count, 0).error;
}

_Noreturn static inline void cloudabi_sys_proc_exit(uint32_t code)
{
    for (;;)
        cloudabi_call(39, code, 0, 0, 0, 0, 0);
}

/* Returns twice: in the parent with the child's descriptor, in the child with CLOUDABI_PROCESS_CHILD and its thread. */
static inline cloudabi_errno_t cloudabi_sys_proc_fork(cloudabi_fd_t *fd, cloudabi_tid_t *thread)
{
    cloudabi_answer_t answer = cloudabi_call(40, 0, 0, 0, 0, 0, 0);
    if (answer.error == CLOUDABI_ESUCCESS) {
        *fd = (cloudabi_fd_t)answer.first;
        *thread = (cloudabi_tid_t)answer.second;
    }
    return answer.error;
}

static inline cloudabi_errno_t cloudabi_sys_proc_raise(uint32_t signal)
{
    return cloudabi_call(41, signal, 0, 0, 0, 0, 0).error;
}

/* Sockets. */

static inline cloudabi_errno_t cloudabi_sys_sock_recv(cloudabi_fd_t fd, const cloudabi_recv_in_t *recv_in,
                                                      cloudabi_recv_out_t *address)
{
    return cloudabi_call(43, fd, CLOUDABI_ADDRESS(recv_in), CLOUDABI_ADDRESS(address), 0, 0, 0).error;
}

static inline cloudabi_errno_t cloudabi_sys_sock_send(cloudabi_fd_t fd, const cloudabi_send_in_t *send_in,
                                                      cloudabi_send_out_t *address)
{
    return cloudabi_call(44, fd, CLOUDABI_ADDRESS(send_in), CLOUDABI_ADDRESS(address), 0, 0, 0).error;
}

static inline cloudabi_errno_t cloudabi_sys_sock_shutdown(cloudabi_fd_t fd, uint32_t how)
{
    return cloudabi_call(45, fd, how, 0, 0, 0, 0).error;
}

/* Threads. */

static inline cloudabi_errno_t cloudabi_sys_thread_create(const cloudabi_threadattr_t *threadattr, cloudabi_tid_t *thread)
{
    cloudabi_answer_t answer = cloudabi_call(46, CLOUDABI_ADDRESS(threadattr), 0, 0, 0, 0, 0);
    if (answer.error == CLOUDABI_ESUCCESS)
        *thread = (cloudabi_tid_t)answer.first;
    return answer.error;
}

/* Doesn't return where it succeeds: the thread ends and the lock is released. */
static inline cloudabi_errno_t cloudabi_sys_thread_exit(uint32_t *lock, uint32_t scope)
{
    return cloudabi_call(47, CLOUDABI_ADDRESS(lock), scope, 0, 0, 0, 0).error;
}

static inline cloudabi_errno_t cloudabi_sys_thread_yield(void)
{
    return cloudabi_call(48, 0, 0, 0, 0, 0, 0).error;
}

#endif
