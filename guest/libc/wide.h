/* What the files on wide characters share. */
#ifndef WIDE_H
#define WIDE_H

#include <wchar.h>

/* A wide text as bytes, which are freed by the caller; NULL where there is no memory, or a letter that has no bytes: EILSEQ. */
char *bytes_of(const wchar_t *text);

/* The same up to the first letter that has no bytes. */
char *first_bytes(const wchar_t *text);

#endif
