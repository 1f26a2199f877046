"""The rights of docs/ABI.md: which of them the descriptors of each type may have, and what each opens."""

MEANINGS = {
    "FD_DATASYNC": "call fd_datasync, which changes nothing",
    "FD_READ": "read",
    "FD_SEEK": "set the offset, read and write at any place",
    "FD_STAT_PUT_FLAGS": "set the flags, such as APPEND",
    "FD_SYNC": "call fd_sync, which changes nothing",
    "FD_TELL": "ask for the offset",
    "FD_WRITE": "write",
    "FILE_ADVISE": "give advice, which changes nothing",
    "FILE_ALLOCATE": "make files longer",
    "FILE_CREATE_DIRECTORY": "make directories",
    "FILE_CREATE_FILE": "make files",
    "FILE_LINK_SOURCE": "give its files further names, also in other directories that have FILE_LINK_TARGET",
    "FILE_LINK_TARGET": "take further names of files",
    "FILE_OPEN": "open what is below, with the inheriting rights",
    "FILE_READDIR": "list its names",
    "FILE_READLINK": "read the texts of symbolic links",
    "FILE_RENAME_SOURCE": "move names away, also into other directories that have FILE_RENAME_TARGET",
    "FILE_RENAME_TARGET": "take names that are moved, in place of those that are there",
    "FILE_STAT_FGET": "ask for size and times",
    "FILE_STAT_FPUT_SIZE": "cut files and make them longer",
    "FILE_STAT_FPUT_TIMES": "set times",
    "FILE_STAT_GET": "ask for size and times of what is below",
    "FILE_STAT_PUT_TIMES": "set times of what is below",
    "FILE_SYMLINK": "make symbolic links",
    "FILE_UNLINK": "remove files and directories",
    "MEM_MAP": "map files into memory, with FD_READ",
    "MEM_MAP_EXEC": "execute what it maps",
    "POLL_FD_READWRITE": "wait until it can be read or written",
    "POLL_PROC_TERMINATE": "wait for a process's end",
    "PROC_EXEC": "start it as a program",
    "SOCK_SHUTDOWN": "close one direction of it",
}

STDIN = {"FD_READ", "FD_STAT_PUT_FLAGS", "FILE_STAT_FGET", "POLL_FD_READWRITE"}
OUTPUT = {"FD_WRITE", "FD_STAT_PUT_FLAGS", "FILE_STAT_FGET", "POLL_FD_READWRITE"}
FILE = {"FD_DATASYNC", "FD_READ", "FD_SEEK", "FD_STAT_PUT_FLAGS", "FD_SYNC", "FD_TELL", "FD_WRITE", "FILE_ADVISE", "FILE_ALLOCATE",
        "FILE_STAT_FGET", "FILE_STAT_FPUT_SIZE", "FILE_STAT_FPUT_TIMES", "MEM_MAP", "MEM_MAP_EXEC", "POLL_FD_READWRITE", "PROC_EXEC"}
DIRECTORY = {"FD_DATASYNC", "FD_STAT_PUT_FLAGS", "FD_SYNC", "FILE_CREATE_DIRECTORY", "FILE_CREATE_FILE", "FILE_LINK_SOURCE",
             "FILE_LINK_TARGET", "FILE_OPEN", "FILE_READDIR", "FILE_READLINK", "FILE_RENAME_SOURCE", "FILE_RENAME_TARGET", "FILE_STAT_FGET",
             "FILE_STAT_FPUT_TIMES", "FILE_STAT_GET", "FILE_STAT_PUT_TIMES", "FILE_SYMLINK", "FILE_UNLINK"}
TYPES = {"standard input": STDIN, "an output": OUTPUT, "a file": FILE, "a directory": DIRECTORY}
