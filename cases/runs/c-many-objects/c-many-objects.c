/* Makes 16,000 objects of different sizes and frees them, within 600 turns: the time for an object doesn't depend on how many there are. */
#include <stdio.h>
#include <stdlib.h>

struct item {
    struct item *next;
    long number;
};

int main(void)
{
    struct item *first = NULL;
    long sum = 0;
    for (long number = 0; number < 16000; ++number) {
        struct item *item = malloc(sizeof *item + (size_t)number % 40);
        if (item == NULL)
            return 1;
        *item = (struct item){first, number};
        first = item;
    }
    while (first != NULL) {
        struct item *next = first->next;
        sum += first->number;
        free(first);
        first = next;
    }
    printf("%ld\n", sum);
    return 0;
}
