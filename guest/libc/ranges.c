/* Ranges of memory that are transferred by as many calls as it takes. */
#include "ranges.h"

#define MOST_OF_CALL 65536 /* bytes that one call transfers */

_Static_assert(sizeof(struct iovec) == sizeof(cloudabi_iovec_t) && offsetof(struct iovec, iov_len) == offsetof(cloudabi_iovec_t, length),
               "a range is laid out as the sandbox has it");

static const struct iovec *next_ranges(const struct ranges *ranges, size_t *count)
{
    bool is_begun = ranges->begun.iov_len > 0;
    *count = is_begun ? 1 : ranges->count;
    return is_begun ? &ranges->begun : ranges->left;
}

const cloudabi_iovec_t *ranges_of_call(const struct ranges *ranges, size_t *count)
{
    return (const cloudabi_iovec_t *)next_ranges(ranges, count);
}

size_t bytes_of_call(const struct ranges *ranges)
{
    size_t count, bytes = 0;
    const struct iovec *array = next_ranges(ranges, &count);
    for (size_t at = 0; at < count && bytes < MOST_OF_CALL; ++at)
        bytes += array[at].iov_len < MOST_OF_CALL ? array[at].iov_len : MOST_OF_CALL;
    return bytes < MOST_OF_CALL ? bytes : MOST_OF_CALL;
}

void pass_ranges(struct ranges *ranges, size_t bytes)
{
    if (ranges->begun.iov_len > 0) {
        ranges->begun.iov_base = (char *)ranges->begun.iov_base + bytes;
        ranges->begun.iov_len -= bytes;
        return;
    }
    while (ranges->count > 0 && ranges->left->iov_len <= bytes) {
        bytes -= ranges->left++->iov_len;
        --ranges->count;
    }
    if (bytes > 0) {
        ranges->begun.iov_base = (char *)ranges->left->iov_base + bytes;
        ranges->begun.iov_len = ranges->left++->iov_len - bytes;
        --ranges->count;
    }
}
