/*
 * What a script of calls may name: the calls, the errors, and the numbers of guest/cloudabi.h.
 */
#ifndef CALLS_H
#define CALLS_H

#include "cloudabi.h"

struct number {
    const char *name;
    uint64_t value;
};

#define NUMBER(name) {#name, CLOUDABI_##name}

/* A script names an error without the E. */
static const struct number errors[] = {
    NUMBER(ESUCCESS), NUMBER(E2BIG), NUMBER(EAGAIN), NUMBER(EBADF), NUMBER(EDEADLK), NUMBER(EEXIST), NUMBER(EFAULT),
    NUMBER(EFBIG), NUMBER(EILSEQ), NUMBER(EINVAL), NUMBER(EISDIR), NUMBER(ELOOP), NUMBER(EMFILE), NUMBER(EMLINK),
    NUMBER(ENAMETOOLONG), NUMBER(ENOBUFS), NUMBER(ENOENT), NUMBER(ENOEXEC), NUMBER(ENOMEM), NUMBER(ENOSYS), NUMBER(ENOTDIR),
    NUMBER(ENOTEMPTY), NUMBER(ENOTSOCK), NUMBER(ENOTSUP), NUMBER(EPERM), NUMBER(EPIPE), NUMBER(ETIMEDOUT), NUMBER(ENOTCAPABLE),
};

/* A right has its name without RIGHT_ too. LAUNCH is added to the numbers of objects that the launch makes, LOOKUP_FOLLOW to a
   lookup's descriptor. */
static const struct number numbers[] = {
    {"LAUNCH", UINT64_C(0xffffffff00000000)}, {"LOOKUP_FOLLOW", UINT64_C(1) << 32},
    NUMBER(SIGABRT), NUMBER(SIGALRM), NUMBER(SIGBUS), NUMBER(SIGCHLD), NUMBER(SIGCONT), NUMBER(SIGFPE), NUMBER(SIGHUP),
    NUMBER(SIGILL), NUMBER(SIGINT), NUMBER(SIGKILL), NUMBER(SIGPIPE), NUMBER(SIGQUIT), NUMBER(SIGSEGV), NUMBER(SIGSTOP),
    NUMBER(SIGSYS), NUMBER(SIGTERM), NUMBER(SIGTRAP), NUMBER(SIGTSTP), NUMBER(SIGTTIN), NUMBER(SIGTTOU), NUMBER(SIGURG),
    NUMBER(SIGUSR1), NUMBER(SIGUSR2), NUMBER(SIGVTALRM), NUMBER(SIGXCPU), NUMBER(SIGXFSZ),
    NUMBER(RIGHT_FD_DATASYNC), NUMBER(RIGHT_FD_READ), NUMBER(RIGHT_FD_SEEK), NUMBER(RIGHT_FD_STAT_PUT_FLAGS),
    NUMBER(RIGHT_FD_SYNC), NUMBER(RIGHT_FD_TELL), NUMBER(RIGHT_FD_WRITE), NUMBER(RIGHT_FILE_ADVISE),
    NUMBER(RIGHT_FILE_ALLOCATE), NUMBER(RIGHT_FILE_CREATE_DIRECTORY), NUMBER(RIGHT_FILE_CREATE_FILE),
    NUMBER(RIGHT_FILE_LINK_SOURCE), NUMBER(RIGHT_FILE_LINK_TARGET), NUMBER(RIGHT_FILE_OPEN), NUMBER(RIGHT_FILE_READDIR),
    NUMBER(RIGHT_FILE_READLINK), NUMBER(RIGHT_FILE_RENAME_SOURCE), NUMBER(RIGHT_FILE_RENAME_TARGET),
    NUMBER(RIGHT_FILE_STAT_FGET), NUMBER(RIGHT_FILE_STAT_FPUT_SIZE), NUMBER(RIGHT_FILE_STAT_FPUT_TIMES),
    NUMBER(RIGHT_FILE_STAT_GET), NUMBER(RIGHT_FILE_STAT_PUT_TIMES), NUMBER(RIGHT_FILE_SYMLINK), NUMBER(RIGHT_FILE_UNLINK),
    NUMBER(RIGHT_MEM_MAP), NUMBER(RIGHT_MEM_MAP_EXEC), NUMBER(RIGHT_POLL_FD_READWRITE), NUMBER(RIGHT_POLL_PROC_TERMINATE),
    NUMBER(RIGHT_PROC_EXEC), NUMBER(RIGHT_SOCK_SHUTDOWN), NUMBER(RIGHTS_READING), NUMBER(RIGHTS_WRITING), NUMBER(RIGHTS_STREAM),
    NUMBER(RIGHTS_FILE), NUMBER(RIGHTS_DIRECTORY), NUMBER(RIGHTS_PROCESS), NUMBER(RIGHTS_INHERITING),
    NUMBER(FILETYPE_CHARACTER_DEVICE), NUMBER(FILETYPE_DIRECTORY), NUMBER(FILETYPE_FIFO), NUMBER(FILETYPE_PROCESS),
    NUMBER(FILETYPE_REGULAR_FILE), NUMBER(FILETYPE_SHARED_MEMORY), NUMBER(FILETYPE_SOCKET_DGRAM),
    NUMBER(FILETYPE_SOCKET_STREAM), NUMBER(FILETYPE_SYMBOLIC_LINK),
    NUMBER(FDFLAG_APPEND), NUMBER(FDFLAG_DSYNC), NUMBER(FDFLAG_NONBLOCK), NUMBER(FDFLAG_RSYNC), NUMBER(FDFLAG_SYNC),
    NUMBER(LOOKUP_SYMLINK_FOLLOW), NUMBER(O_CREAT), NUMBER(O_DIRECTORY), NUMBER(O_EXCL), NUMBER(O_TRUNC), NUMBER(FDSTAT_FLAGS),
    NUMBER(FDSTAT_RIGHTS), NUMBER(FILESTAT_ATIM), NUMBER(FILESTAT_ATIM_NOW), NUMBER(FILESTAT_MTIM), NUMBER(FILESTAT_MTIM_NOW),
    NUMBER(FILESTAT_SIZE), NUMBER(UNLINK_REMOVEDIR), NUMBER(PROT_EXEC), NUMBER(PROT_WRITE), NUMBER(PROT_READ), NUMBER(MAP_ANON),
    NUMBER(MAP_FIXED), NUMBER(MAP_PRIVATE), NUMBER(MAP_SHARED), NUMBER(MS_ASYNC), NUMBER(MS_INVALIDATE), NUMBER(MS_SYNC),
    NUMBER(SUBSCRIPTION_CLOCK_ABSTIME), NUMBER(EVENT_FD_READWRITE_HANGUP), NUMBER(SOCK_RECV_PEEK), NUMBER(SOCK_RECV_WAITALL),
    NUMBER(SOCK_RECV_FDS_TRUNCATED), NUMBER(SOCK_RECV_DATA_TRUNCATED), NUMBER(SHUT_RD), NUMBER(SHUT_WR),
    NUMBER(WHENCE_CUR), NUMBER(WHENCE_END), NUMBER(WHENCE_SET), NUMBER(CLOCK_MONOTONIC), NUMBER(CLOCK_REALTIME),
    NUMBER(SCOPE_PRIVATE), NUMBER(SCOPE_SHARED), NUMBER(EVENTTYPE_CLOCK), NUMBER(EVENTTYPE_CONDVAR), NUMBER(EVENTTYPE_FD_READ),
    NUMBER(EVENTTYPE_FD_WRITE), NUMBER(EVENTTYPE_LOCK_RDLOCK), NUMBER(EVENTTYPE_LOCK_WRLOCK), NUMBER(EVENTTYPE_PROC_TERMINATE),
    NUMBER(AT_NULL), NUMBER(AT_PHDR), NUMBER(AT_PHNUM), NUMBER(AT_PAGESZ), NUMBER(AT_BASE), NUMBER(AT_ARGDATA),
    NUMBER(AT_ARGDATALEN), NUMBER(AT_CANARY), NUMBER(AT_CANARYLEN), NUMBER(AT_NCPUS), NUMBER(AT_TID), NUMBER(AT_PID),
    NUMBER(PROCESS_CHILD),
};

/*
 * A call, with a letter for each argument and the count of its results in registers:
 *   n a number          s a filestat that is put    r ranges that are read into    o the output's address
 *   t a text or bytes   f an fdstat                 w ranges that are written      b the output's address, and a length
 *   p pieces            d descriptors               m a message to be sent         v room for a message
 */
static const struct call {
    const char *name;
    uint64_t number;
    const char *arguments;
    uint64_t results;
} calls[] = {
    {"clock_res_get", 0, "n", 1},
    {"clock_time_get", 1, "nn", 1},
    {"condvar_signal", 2, "pnn", 0},
    {"fd_close", 3, "n", 0},
    {"fd_create1", 4, "n", 0},
    {"fd_create2", 5, "n", 2},
    {"fd_datasync", 6, "n", 0},
    {"fd_dup", 7, "n", 1},
    {"fd_pread", 8, "nrn", 1},
    {"fd_pwrite", 9, "nwn", 1},
    {"fd_read", 10, "nr", 1},
    {"fd_replace", 11, "nn", 0},
    {"fd_seek", 12, "nnn", 1},
    {"fd_stat_get", 13, "no", 0},
    {"fd_stat_put", 14, "nfn", 0},
    {"fd_sync", 15, "n", 0},
    {"fd_write", 16, "nw", 1},
    {"file_advise", 17, "nnnn", 0},
    {"file_allocate", 18, "nnn", 0},
    {"file_create", 19, "ntn", 0},
    {"file_link", 20, "ntnt", 0},
    {"file_open", 21, "ntnf", 1},
    {"file_readdir", 22, "nbn", 1},
    {"file_readlink", 23, "ntb", 1},
    {"file_rename", 24, "ntnt", 0},
    {"file_stat_fget", 25, "no", 0},
    {"file_stat_fput", 26, "nsn", 0},
    {"file_stat_get", 27, "nto", 0},
    {"file_stat_put", 28, "ntsn", 0},
    {"file_symlink", 29, "tnt", 0},
    {"file_unlink", 30, "ntn", 0},
    {"lock_unlock", 31, "pn", 0},
    {"mem_advise", 32, "nnn", 0},
    {"mem_map", 33, "nnnnnn", 1},
    {"mem_protect", 34, "nnn", 0},
    {"mem_sync", 35, "nnn", 0},
    {"mem_unmap", 36, "nn", 0},
    {"poll", 37, "q", 1},
    {"proc_exec", 38, "ntd", 0},
    {"proc_exit", 39, "n", 0},
    {"proc_fork", 40, "", 2},
    {"proc_raise", 41, "n", 0},
    {"random_get", 42, "b", 0},
    {"sock_recv", 43, "nvo", 0},
    {"sock_send", 44, "nmo", 0},
    {"sock_shutdown", 45, "nn", 0},
    {"thread_create", 46, "p", 1},
    {"thread_exit", 47, "pn", 0},
    {"thread_yield", 48, "", 0},
};

#endif
