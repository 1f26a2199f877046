/*
 * Shows its argument data, byte by byte, to whoever reads the run's history. It may have no descriptor to write to, so it maps
 * pages at addresses that encode three bytes each, and then one that encodes how many bytes there are. It exits with 1 where a
 * page is refused.
 */
#include "argdata.h"

#define FIRST UINT64_C(0x2000000000)

static void map_page(uint64_t number)
{
    void *memory;
    cloudabi_errno_t error = cloudabi_sys_mem_map((void *)(FIRST + (number << 12)), 4096, CLOUDABI_PROT_READ,
                                                  CLOUDABI_MAP_ANON | CLOUDABI_MAP_FIXED | CLOUDABI_MAP_PRIVATE, UINT32_MAX, 0,
                                                  &memory);
    if (error != CLOUDABI_ESUCCESS)
        cloudabi_sys_proc_exit(1);
}

static uint64_t byte_at(const argdata_t *arguments, size_t place)
{
    return place < arguments->length ? arguments->bytes[place] : 0;
}

void program_main(const argdata_t *arguments)
{
    for (size_t i = 0; i < arguments->length; i += 3)
        map_page(byte_at(arguments, i) | byte_at(arguments, i + 1) << 8 | byte_at(arguments, i + 2) << 16);
    map_page(arguments->length);
}
