/*
 * Does the rows of a table (rows.h), and reports to descriptor 0 what differs, a line for each difference: in a register, in the pc at the
 * row's end, or in memory. Last it reports how many rows there were. It exits with 0 where nothing differs, with 1 where something does,
 * and with 2 where it can't have its pages.
 */
#include "argdata.h"

/* As in rows.h. */
#define CODE UINT64_C(0x200000)
#define BACK UINT32_C(0x000f0f67)
#define DATA UINT64_C(0x20000)
#define PAGE UINT64_C(4096)

enum { TP = 4, T5 = 30, REGISTERS = 32 };

struct row {
    uint32_t line;
    int32_t end;
    uint32_t code[4];
    uint8_t given[5], left[2], unused;
    uint64_t given_numbers[5], left_numbers[2];
    uint64_t address, before[2], after[2];
};

extern const struct row rows[], rows_end[];

/* The numbers of the registers, and behind them those that C has in its own meanwhile. */
struct frame {
    uint64_t numbers[REGISTERS], own[REGISTERS];
};

/* Goes where t5 says, with these numbers in all registers but tp. Where something leads back by t5, the numbers of then take their place. */
void do_row(struct frame *frame);

__asm__(".text\n"
        "do_row:\n"
        "        .irp    n, 1,2,3,4,8,9,18,19,20,21,22,23,24,25,26,27\n"
        "        sd      x\\n, 256 + 8 * \\n(a0)\n"
        "        .endr\n"
        "        mv      tp, a0\n"
        "        .irp    n, 1,2,3,5,6,7,8,9,10,11,12,13,14,15,16,17,18,19,20,21,22,23,24,25,26,27,28,29,30,31\n"
        "        ld      x\\n, 8 * \\n(tp)\n"
        "        .endr\n"
        "        jalr    t5, 0(t5)\n"
        "        .irp    n, 0,1,2,3,5,6,7,8,9,10,11,12,13,14,15,16,17,18,19,20,21,22,23,24,25,26,27,28,29,30,31\n"
        "        sd      x\\n, 8 * \\n(tp)\n"
        "        .endr\n"
        "        mv      a0, tp\n"
        "        .irp    n, 1,2,3,4,8,9,18,19,20,21,22,23,24,25,26,27\n"
        "        ld      x\\n, 256 + 8 * \\n(a0)\n"
        "        .endr\n"
        "        ret\n");

/* Lines. */

static char text[128];
static size_t length;

static void put(const char *more)
{
    while (*more != '\0')
        text[length++] = *more++;
}

static void put_number(uint64_t number, uint64_t base)
{
    if (number >= base)
        put_number(number / base, base);
    text[length++] = "0123456789abcdef"[number % base];
}

static void tell(void)
{
    size_t written;
    text[length++] = '\n';
    cloudabi_iovec_t range = {text, length};
    cloudabi_sys_fd_write(0, &range, 1, &written);
    length = 0;
}

static bool has_differed;

static void compare(const struct row *row, uint64_t wanted, uint64_t came, const char *where)
{
    if (wanted == came)
        return;
    has_differed = true;
    put("line ");
    put_number(row->line, 10);
    put(": wanted ");
    put_number(wanted, 16);
    put(", came ");
    put_number(came, 16);
    put(" in ");
    put(where);
    tell();
}

static void compare_register(const struct row *row, uint64_t wanted, uint64_t came, size_t number)
{
    char name[4] = "x";
    size_t end = 1;
    if (number >= 10)
        name[end++] = (char)('0' + number / 10);
    name[end] = (char)('0' + number % 10);
    compare(row, wanted, came, name);
}

/* Pages. */

static void check(cloudabi_errno_t error)
{
    if (error != CLOUDABI_ESUCCESS)
        cloudabi_sys_proc_exit(2);
}

static void protect(uint64_t address, uint64_t pages, uint32_t prot)
{
    check(cloudabi_sys_mem_protect((void *)address, pages * PAGE, prot));
}

static void map(uint64_t address, uint64_t pages)
{
    void *memory;
    check(cloudabi_sys_mem_map((void *)address, pages * PAGE, CLOUDABI_PROT_READ | CLOUDABI_PROT_WRITE,
                               CLOUDABI_MAP_ANON | CLOUDABI_MAP_FIXED | CLOUDABI_MAP_PRIVATE, 0, 0, &memory));
}

static void map_code(uint64_t address, uint64_t pages)
{
    map(address, pages);
    for (uint64_t at = address; at < address + pages * PAGE; at += 4)
        *(volatile uint32_t *)at = BACK;
    protect(address, pages, CLOUDABI_PROT_READ | CLOUDABI_PROT_EXEC);
}

/* Rows. */

static void write_code(const struct row *row)
{
    protect(CODE, 1, CLOUDABI_PROT_READ | CLOUDABI_PROT_WRITE);
    for (size_t i = 0; i < 4; ++i)
        ((volatile uint32_t *)CODE)[i] = row->code[i];
    protect(CODE, 1, CLOUDABI_PROT_READ | CLOUDABI_PROT_EXEC);
}

static void set_registers(const struct row *row, struct frame *frame)
{
    for (size_t i = 0; i < REGISTERS; ++i)
        frame->numbers[i] = i * UINT64_C(0x0101010101010101);
    for (size_t i = 0; i < 5; ++i)
        frame->numbers[row->given[i]] = row->given_numbers[i];
    frame->numbers[0] = 0;
    frame->numbers[T5] = CODE;
}

static void write_memory(const struct row *row)
{
    for (size_t i = 0; row->address != 0 && i < 16; ++i)
        ((volatile uint8_t *)row->address)[i] = ((const uint8_t *)row->before)[i];
}

static void compare_memory(const struct row *row)
{
    uint64_t came[2];
    for (size_t i = 0; row->address != 0 && i < 16; ++i)
        ((uint8_t *)came)[i] = ((volatile uint8_t *)row->address)[i];
    for (size_t i = 0; row->address != 0 && i < 2; ++i)
        compare(row, row->after[i], came[i], "memory");
}

static void do_and_compare(const struct row *row)
{
    static struct frame frame, wanted;
    set_registers(row, &wanted);
    frame = wanted;
    for (size_t i = 0; i < 2; ++i)
        wanted.numbers[row->left[i]] = row->left_numbers[i];
    write_memory(row);
    write_code(row);
    do_row(&frame);
    compare(row, CODE + (uint64_t)row->end, frame.numbers[T5] - 4, "pc");
    for (size_t i = 0; i < REGISTERS; ++i) {
        if (i != TP && i != T5)
            compare_register(row, wanted.numbers[i], frame.numbers[i], i);
    }
    compare_memory(row);
}

void program_main(const argdata_t *arguments)
{
    (void)arguments;
    map(DATA, 3);
    protect(DATA + 2 * PAGE, 1, CLOUDABI_PROT_READ);
    map_code(CODE - PAGE, 3);
    map_code(CODE - 0x100000, 1);
    map_code(CODE + 0xff000, 1);
    for (const struct row *row = rows; row < rows_end; ++row)
        do_and_compare(row);
    put_number((uint64_t)(rows_end - rows), 10);
    put(" rows");
    tell();
    cloudabi_sys_proc_exit(has_differed ? 1 : 0);
}
