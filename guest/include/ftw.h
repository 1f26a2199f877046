/* Walks of trees. */
#ifndef _FTW_H
#define _FTW_H

#include <sys/stat.h>

#ifdef __cplusplus
extern "C" {
#endif

#define FTW_F 0
#define FTW_D 1
#define FTW_DNR 2
#define FTW_NS 3
#define FTW_SL 4
#define FTW_DP 5
#define FTW_SLN 6

#define FTW_PHYS 1
#define FTW_MOUNT 2
#define FTW_CHDIR 4
#define FTW_DEPTH 8

struct FTW {
    int base, level;
};

int ftw(const char *path, int (*does)(const char *path, const struct stat *status, int kind), int most);
int nftw(const char *path, int (*does)(const char *path, const struct stat *status, int kind, struct FTW *place), int most, int flags);

#ifdef __cplusplus
}
#endif

#endif
