/* Messages on the standard error, with the program's name before them. */
#ifndef _ERR_H
#define _ERR_H

#include <stdarg.h>

#ifdef __cplusplus
extern "C" {
#endif

#define __WARNS(format, first) __attribute__((__format__(__printf__, format, first)))

void warn(const char *format, ...) __WARNS(1, 2);
void warnx(const char *format, ...) __WARNS(1, 2);
void vwarn(const char *format, va_list arguments) __WARNS(1, 0);
void vwarnx(const char *format, va_list arguments) __WARNS(1, 0);
void err(int code, const char *format, ...) __WARNS(2, 3) __attribute__((__noreturn__));
void errx(int code, const char *format, ...) __WARNS(2, 3) __attribute__((__noreturn__));
void verr(int code, const char *format, va_list arguments) __WARNS(2, 0) __attribute__((__noreturn__));
void verrx(int code, const char *format, va_list arguments) __WARNS(2, 0) __attribute__((__noreturn__));

#ifdef __cplusplus
}
#endif

#endif
