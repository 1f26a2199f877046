/* picolibc's search.h, with searches of arrays and linked lists. */
#include_next <search.h>

#ifndef _GUEST_SEARCH_H
#define _GUEST_SEARCH_H

#ifdef __cplusplus
extern "C" {
#endif

void *lfind(const void *key, const void *array, size_t *count, size_t size, int (*compares)(const void *, const void *));
void *lsearch(const void *key, void *array, size_t *count, size_t size, int (*compares)(const void *, const void *));
void insque(void *element, void *before);
void remque(void *element);

#ifdef __cplusplus
}
#endif

#endif
