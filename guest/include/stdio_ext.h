/* What a stream is doing, by the names that other C libraries have. */
#ifndef _STDIO_EXT_H
#define _STDIO_EXT_H

#include <stdio.h>

#ifdef __cplusplus
extern "C" {
#endif

size_t __fbufsize(FILE *file);
size_t __fpending(FILE *file);
int __flbf(FILE *file);
int __freadable(FILE *file);
int __fwritable(FILE *file);
int __freading(FILE *file);
int __fwriting(FILE *file);
void __fpurge(FILE *file);
void _flushlbf(void);
void __fseterr(FILE *file);
size_t __freadahead(FILE *file);
const char *__freadptr(FILE *file, size_t *size);
void __freadptrinc(FILE *file, size_t size);

#define FSETLOCKING_QUERY 0
#define FSETLOCKING_INTERNAL 1
#define FSETLOCKING_BYCALLER 2
int __fsetlocking(FILE *file, int kind);

#ifdef __cplusplus
}
#endif

#endif
