/*
 * Does words, the last of which traps. The argument data is a map of "words", a sequence of numbers, and perhaps of "a0" and "a1", the
 * numbers of these registers, which else are 0 and 9. Where no word traps it exits with a0, by the ECALLs that stand behind the words and
 * where they lead. It exits with 2 where its argument data is something else, or where it can't have its pages.
 *
 * The memory beside it:
 *   0x10000          the page of its own code, which may be read and executed
 *   0x20000, 0x21000 may be read and written
 *   0x22000          may be read
 *   0x23000          may be written
 *   0x24000, 0x25000 ECALLs, which may be executed
 *   0x40000          the words, and ECALLs behind them, which may be read and executed
 */
#include "argdata.h"

#define PAGE  UINT64_C(4096)
#define CODE  UINT64_C(0x40000)
#define ECALL UINT32_C(0x73)

enum { READ = CLOUDABI_PROT_READ, WRITE = CLOUDABI_PROT_WRITE, EXEC = CLOUDABI_PROT_EXEC };

static void check(bool is_right)
{
    if (!is_right)
        cloudabi_sys_proc_exit(2);
}

static int64_t number_of(const argdata_t *map, const char *key, int64_t otherwise)
{
    argdata_t value;
    int64_t number;
    if (!argdata_map_find(map, key, &value))
        return otherwise;
    check(argdata_get_int(&value, &number));
    return number;
}

static void protect(uint64_t address, uint64_t pages, uint32_t prot)
{
    check(cloudabi_sys_mem_protect((void *)address, pages * PAGE, prot) == CLOUDABI_ESUCCESS);
}

static void map(uint64_t address, uint64_t pages)
{
    void *memory;
    check(cloudabi_sys_mem_map((void *)address, pages * PAGE, READ | WRITE,
                               CLOUDABI_MAP_ANON | CLOUDABI_MAP_FIXED | CLOUDABI_MAP_PRIVATE, 0, 0, &memory) == CLOUDABI_ESUCCESS);
}

static void fill(uint64_t address, uint64_t pages)
{
    for (uint64_t at = address; at < address + pages * PAGE; at += 4)
        *(volatile uint32_t *)at = ECALL;
}

static void write_words(const argdata_t *arguments)
{
    argdata_t value, item;
    argdata_rest_t rest;
    check(argdata_map_find(arguments, "words", &value) && argdata_seq_begin(&value, &rest));
    for (uint64_t at = CODE; argdata_seq_next(&rest, &item); at += 4) {
        int64_t word;
        check(argdata_get_int(&item, &word) && at < CODE + PAGE);
        *(volatile uint32_t *)at = (uint32_t)word;
    }
}

void program_main(const argdata_t *arguments)
{
    map(0x20000, 6);
    fill(0x24000, 2);
    map(CODE, 1);
    fill(CODE, 1);
    write_words(arguments);
    protect(0x22000, 1, READ);
    protect(0x23000, 1, WRITE);
    protect(0x24000, 2, EXEC);
    protect(CODE, 1, READ | EXEC);

    int64_t first = number_of(arguments, "a0", 0), second = number_of(arguments, "a1", 9);
    register int64_t a0 __asm__("a0") = first;
    register int64_t a1 __asm__("a1") = second;
    register uint64_t a2 __asm__("a2") = 7;
    register uint64_t a7 __asm__("a7") = 39; /* proc_exit */
    __asm__ volatile("jr %4" : : "r"(a0), "r"(a1), "r"(a2), "r"(a7), "r"(CODE));
    __builtin_unreachable();
}
