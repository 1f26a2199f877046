/* Directories. */
#ifndef _DIRENT_H
#define _DIRENT_H

#include <sys/cdefs.h>
#include <sys/types.h>

#ifdef __cplusplus
extern "C" {
#endif

struct dirent {
    ino_t d_ino;
    off_t d_off;
    unsigned short d_reclen;
    unsigned char d_type;
    char d_name[256];
};

typedef struct __directory DIR;

#define DT_UNKNOWN 0
#define DT_FIFO 1
#define DT_CHR 2
#define DT_DIR 4
#define DT_BLK 6
#define DT_REG 8
#define DT_LNK 10
#define DT_SOCK 12
#define IFTODT(mode) (((mode)&0170000) >> 12)
#define DTTOIF(type) ((type) << 12)
#define _DIRENT_HAVE_D_TYPE
#define d_fileno d_ino
#define MAXNAMLEN 255

DIR *opendir(const char *path);
DIR *fdopendir(int fd);
int closedir(DIR *directory);
int dirfd(DIR *directory);
struct dirent *readdir(DIR *directory);
int readdir_r(DIR *directory, struct dirent *entry, struct dirent **found);
void rewinddir(DIR *directory);
void seekdir(DIR *directory, long place);
long telldir(DIR *directory);
int scandir(const char *path, struct dirent ***names, int (*takes)(const struct dirent *),
            int (*compares)(const struct dirent **, const struct dirent **));
int alphasort(const struct dirent **left, const struct dirent **right);
int versionsort(const struct dirent **left, const struct dirent **right);

#ifdef __cplusplus
}
#endif

#endif
