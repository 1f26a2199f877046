/* Ranges of memory that are transferred by as many calls as it takes. */
#ifndef RANGES_H
#define RANGES_H

#include "system.h"

#include <sys/uio.h>

/* What is still to be transferred: the rest of a range of which a part is done, and the ranges behind it. */
struct ranges {
    struct iovec begun;
    const struct iovec *left;
    size_t count;
};

/* The array that the next call has, and how many ranges it has. It is the rest of the range that is begun alone, where there is one. The
   sandbox reads C's ranges as they stand. */
const cloudabi_iovec_t *ranges_of_call(const struct ranges *ranges, size_t *count);

/* How many bytes the next call transfers at most; 0 where nothing is left. */
size_t bytes_of_call(const struct ranges *ranges);

/* The last call has done so many bytes. */
void pass_ranges(struct ranges *ranges, size_t bytes);

#endif
