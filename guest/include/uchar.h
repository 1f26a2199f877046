/* Characters of 16 and 32 bits. */
#ifndef _UCHAR_H
#define _UCHAR_H

#include <wchar.h>

#ifdef __cplusplus
extern "C" {
#else
typedef __CHAR16_TYPE__ char16_t;
typedef __CHAR32_TYPE__ char32_t;
#endif

size_t mbrtoc16(char16_t *__restrict to, const char *__restrict from, size_t most, mbstate_t *__restrict state);
size_t mbrtoc32(char32_t *__restrict to, const char *__restrict from, size_t most, mbstate_t *__restrict state);
size_t c16rtomb(char *__restrict to, char16_t letter, mbstate_t *__restrict state);
size_t c32rtomb(char *__restrict to, char32_t letter, mbstate_t *__restrict state);

#ifdef __cplusplus
}
#endif

#endif
