/* Searches of arrays from their beginning, and linked lists. */
#include <search.h>
#include <stddef.h>
#include <string.h>

void *lfind(const void *key, const void *array, size_t *count, size_t size, int (*compares)(const void *, const void *))
{
    const char *element = array;
    for (size_t at = 0; at < *count; ++at, element += size) {
        if (compares(key, element) == 0)
            return (void *)element;
    }
    return NULL;
}

void *lsearch(const void *key, void *array, size_t *count, size_t size, int (*compares)(const void *, const void *))
{
    void *found = lfind(key, array, count, size, compares);
    return found != NULL ? found : memcpy((char *)array + (*count)++ * size, key, size);
}

/* What an element of a list begins with. */
struct element {
    struct element *next, *previous;
};

void insque(void *element, void *before)
{
    struct element *it = element, *previous = before;
    it->previous = previous;
    it->next = previous == NULL ? NULL : previous->next;
    if (it->next != NULL)
        it->next->previous = it;
    if (previous != NULL)
        previous->next = it;
}

void remque(void *element)
{
    struct element *it = element;
    if (it->next != NULL)
        it->next->previous = it->previous;
    if (it->previous != NULL)
        it->previous->next = it->next;
}
