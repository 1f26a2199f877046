/*
 * Streams, for programs that are linked with the C library. They stand in the place of picolibc's: its own lose a last line without a
 * line feed, know no `x`, and print floating-point numbers to 17 digits.
 */
#ifndef _STDIO_H_
#define _STDIO_H_ 1

#include <sys/cdefs.h>
#include <sys/types.h>

#define __need_NULL
#define __need_size_t
#include <stddef.h>
#include <stdarg.h>

#ifdef __cplusplus
extern "C" {
#endif

typedef struct __file __FILE;
#ifndef __FILE_defined
typedef __FILE FILE;
#define __FILE_defined
#endif

typedef __off_t fpos_t;

extern FILE *stdin, *stdout, *stderr;
#define stdin stdin
#define stdout stdout
#define stderr stderr

#define EOF (-1)
#define _IOFBF 0
#define _IOLBF 1
#define _IONBF 2
#define BUFSIZ 4096
#define FOPEN_MAX 1024
#define FILENAME_MAX 1024
#define L_tmpnam 32
#define TMP_MAX 10000
#ifndef SEEK_SET
#define SEEK_SET 0
#define SEEK_CUR 1
#define SEEK_END 2
#endif
#if __MISC_VISIBLE || __XSI_VISIBLE
#define P_tmpdir "/tmp"
#endif

#define __PRINTS(format, first) __attribute__((__format__(__printf__, format, first)))
#define __SCANS(format, first) __attribute__((__format__(__scanf__, format, first)))

/* Opening and closing. */
FILE *fopen(const char *__restrict path, const char *__restrict mode);
FILE *freopen(const char *__restrict path, const char *__restrict mode, FILE *__restrict file);
int fclose(FILE *file);
int fflush(FILE *file);
void setbuf(FILE *__restrict file, char *__restrict buffer);
int setvbuf(FILE *__restrict file, char *__restrict buffer, int mode, size_t size);
FILE *tmpfile(void);
char *tmpnam(char *name);
int remove(const char *path);
int rename(const char *old, const char *new_path);

/* Bytes and lines. */
int fgetc(FILE *file);
int getc(FILE *file);
int getchar(void);
int ungetc(int byte, FILE *file);
char *fgets(char *__restrict line, int size, FILE *__restrict file);
char *gets(char *line);
size_t fread(void *__restrict bytes, size_t size, size_t count, FILE *__restrict file);
int fputc(int byte, FILE *file);
int putc(int byte, FILE *file);
int putchar(int byte);
int fputs(const char *__restrict text, FILE *__restrict file);
int puts(const char *text);
size_t fwrite(const void *__restrict bytes, size_t size, size_t count, FILE *__restrict file);

/* State and position. */
void clearerr(FILE *file);
int feof(FILE *file);
int ferror(FILE *file);
void perror(const char *text);
int fseek(FILE *file, long offset, int whence);
long ftell(FILE *file);
void rewind(FILE *file);
int fgetpos(FILE *__restrict file, fpos_t *__restrict place);
int fsetpos(FILE *file, const fpos_t *place);

/* Formats. */
int printf(const char *__restrict format, ...) __PRINTS(1, 2);
int fprintf(FILE *__restrict file, const char *__restrict format, ...) __PRINTS(2, 3);
int sprintf(char *__restrict text, const char *__restrict format, ...) __PRINTS(2, 3);
int vprintf(const char *__restrict format, va_list arguments) __PRINTS(1, 0);
int vfprintf(FILE *__restrict file, const char *__restrict format, va_list arguments) __PRINTS(2, 0);
int vsprintf(char *__restrict text, const char *__restrict format, va_list arguments) __PRINTS(2, 0);
int scanf(const char *__restrict format, ...) __SCANS(1, 2);
int fscanf(FILE *__restrict file, const char *__restrict format, ...) __SCANS(2, 3);
int sscanf(const char *__restrict text, const char *__restrict format, ...) __SCANS(2, 3);
#if __ISO_C_VISIBLE >= 1999
int snprintf(char *__restrict text, size_t size, const char *__restrict format, ...) __PRINTS(3, 4);
int vsnprintf(char *__restrict text, size_t size, const char *__restrict format, va_list arguments) __PRINTS(3, 0);
int vscanf(const char *__restrict format, va_list arguments) __SCANS(1, 0);
int vfscanf(FILE *__restrict file, const char *__restrict format, va_list arguments) __SCANS(2, 0);
int vsscanf(const char *__restrict text, const char *__restrict format, va_list arguments) __SCANS(2, 0);
#endif

#if __POSIX_VISIBLE || __MISC_VISIBLE
int fileno(FILE *file);
FILE *fdopen(int fd, const char *mode);
int getc_unlocked(FILE *file);
int getchar_unlocked(void);
int putc_unlocked(int byte, FILE *file);
int putchar_unlocked(int byte);
void flockfile(FILE *file);
int ftrylockfile(FILE *file);
void funlockfile(FILE *file);
FILE *popen(const char *command, const char *mode);
int pclose(FILE *file);
char *ctermid(char *name);
#endif

#if __POSIX_VISIBLE >= 200112 || __LARGEFILE_VISIBLE || __MISC_VISIBLE
int fseeko(FILE *file, __off_t offset, int whence);
__off_t ftello(FILE *file);
#endif

#if __POSIX_VISIBLE >= 200809
FILE *fmemopen(void *__restrict bytes, size_t size, const char *__restrict mode);
FILE *open_memstream(char **bytes, size_t *size);
_ssize_t getline(char **__restrict line, size_t *__restrict capacity, FILE *__restrict file);
_ssize_t getdelim(char **__restrict line, size_t *__restrict capacity, int end, FILE *__restrict file);
int dprintf(int fd, const char *__restrict format, ...) __PRINTS(2, 3);
int vdprintf(int fd, const char *__restrict format, va_list arguments) __PRINTS(2, 0);
int renameat(int old_directory, const char *old, int new_directory, const char *new_path);
#endif

#if __MISC_VISIBLE
int asprintf(char **text, const char *__restrict format, ...) __PRINTS(2, 3);
int vasprintf(char **text, const char *__restrict format, va_list arguments) __PRINTS(2, 0);
void setbuffer(FILE *file, char *buffer, size_t size);
void setlinebuf(FILE *file);
int fcloseall(void);
int getw(FILE *file);
int putw(int word, FILE *file);
char *tempnam(const char *directory, const char *prefix);
int fgetc_unlocked(FILE *file);
int fputc_unlocked(int byte, FILE *file);
char *fgets_unlocked(char *__restrict line, int size, FILE *__restrict file);
int fputs_unlocked(const char *__restrict text, FILE *__restrict file);
size_t fread_unlocked(void *__restrict bytes, size_t size, size_t count, FILE *__restrict file);
size_t fwrite_unlocked(const void *__restrict bytes, size_t size, size_t count, FILE *__restrict file);
int fflush_unlocked(FILE *file);
int feof_unlocked(FILE *file);
int ferror_unlocked(FILE *file);
void clearerr_unlocked(FILE *file);
int fileno_unlocked(FILE *file);
int fpurge(FILE *file);
#endif

#if __GNU_VISIBLE
typedef struct {
    _ssize_t (*read)(void *cookie, char *bytes, size_t size);
    _ssize_t (*write)(void *cookie, const char *bytes, size_t size);
    int (*seek)(void *cookie, off_t *place, int whence);
    int (*close)(void *cookie);
} cookie_io_functions_t;

FILE *fopencookie(void *cookie, const char *mode, cookie_io_functions_t functions);
#endif

#ifdef __cplusplus
}
#endif

#endif
