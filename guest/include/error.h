/* Messages on the standard error, as GNU's programs have them. */
#ifndef _ERROR_H
#define _ERROR_H

#ifdef __cplusplus
extern "C" {
#endif

extern unsigned error_message_count;
void error(int code, int number, const char *format, ...) __attribute__((__format__(__printf__, 3, 4)));

#ifdef __cplusplus
}
#endif

#endif
