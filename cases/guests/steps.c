/*
 * Does the steps of a table (steps.h), and reports to descriptor 0 what differs, a line for each difference. Last it reports how many steps
 * there were. It exits with 0 where nothing differs, with 1 where something does, and with 2 where a call fails.
 */
#include "argdata.h"

#define PAGE UINT64_C(4096)

enum { READ = CLOUDABI_PROT_READ, WRITE = CLOUDABI_PROT_WRITE, EXEC = CLOUDABI_PROT_EXEC };
enum kind { MAP, PROTECT, UNMAP, PUT, CODE, CALL, ENDS, HAS, FORK };

struct step {
    uint32_t line, kind;
    uint64_t address, count, prot, given[2], wanted[2];
    uint32_t words[8];
};

extern const struct step steps[], steps_end[];

/* Calls what t5 says, with a0 and a1; a7 is the number of proc_exit. What is called may change all registers but sp, gp, tp and s0 to s11. */
uint64_t call_code(uint64_t first, uint64_t second, uint64_t address);

__asm__(".text\n"
        "call_code:\n"
        "        mv      t5, a2\n"
        "        li      a2, 0\n"
        "        li      a7, 39\n"
        "        jr      t5\n");

/* Lines. */

static char text[128];
static size_t length;

static void put(const char *more)
{
    while (*more != '\0')
        text[length++] = *more++;
}

static void put_number(uint64_t number, uint64_t base)
{
    if (number >= base)
        put_number(number / base, base);
    text[length++] = "0123456789abcdef"[number % base];
}

static void check(cloudabi_errno_t error)
{
    if (error != CLOUDABI_ESUCCESS)
        cloudabi_sys_proc_exit(2);
}

static void tell(void)
{
    size_t written;
    text[length++] = '\n';
    cloudabi_iovec_t range = {text, length};
    check(cloudabi_sys_fd_write(0, &range, 1, &written));
    length = 0;
}

static bool has_differed;

static void compare(const struct step *step, uint64_t wanted, uint64_t came, const char *what)
{
    if (wanted == came)
        return;
    has_differed = true;
    put("line ");
    put_number(step->line, 10);
    put(": wanted ");
    put_number(wanted, 16);
    put(", came ");
    put_number(came, 16);
    put(" as ");
    put(what);
    tell();
}

/* Pages. */

static void protect(uint64_t address, uint64_t pages, uint64_t prot)
{
    check(cloudabi_sys_mem_protect((void *)address, pages * PAGE, (uint32_t)prot));
}

static void map(uint64_t address, uint64_t pages)
{
    void *memory;
    check(cloudabi_sys_mem_map((void *)address, pages * PAGE, READ | WRITE,
                               CLOUDABI_MAP_ANON | CLOUDABI_MAP_FIXED | CLOUDABI_MAP_PRIVATE, 0, 0, &memory));
}

static void write_words(const struct step *step)
{
    for (uint64_t i = 0; i < step->count; ++i)
        ((volatile uint32_t *)step->address)[i] = step->words[i];
}

static void write_code(const struct step *step)
{
    uint64_t page = step->address & ~(PAGE - 1);
    protect(page, 1, READ | WRITE);
    write_words(step);
    protect(page, 1, READ | EXEC);
}

static uint64_t number_at(uint64_t address, uint64_t width)
{
    switch (width) {
    case 1:
        return *(volatile uint8_t *)address;
    case 2:
        return *(volatile uint16_t *)address;
    case 4:
        return *(volatile uint32_t *)address;
    default:
        return *(volatile uint64_t *)address;
    }
}

/* Children. */

static bool in_child(cloudabi_fd_t *process)
{
    cloudabi_tid_t thread;
    check(cloudabi_sys_proc_fork(process, &thread));
    return *process == CLOUDABI_PROCESS_CHILD;
}

/* How a child has ended. */
static void compare_end(const struct step *step, cloudabi_fd_t process)
{
    cloudabi_subscription_t subscription = {.kind = CLOUDABI_EVENTTYPE_PROC_TERMINATE, .proc_terminate = {process}};
    cloudabi_event_t event;
    size_t events;
    check(cloudabi_sys_poll(&subscription, &event, 1, &events));
    check(cloudabi_sys_fd_close(process));
    compare(step, step->wanted[0], event.proc_terminate.signal, "a signal");
    compare(step, step->wanted[1], event.proc_terminate.code, "a code");
}

static void call_in_child(const struct step *step)
{
    cloudabi_fd_t process;
    if (in_child(&process))
        cloudabi_sys_proc_exit((uint32_t)call_code(step->given[0], step->given[1], step->address));
    compare_end(step, process);
}

static void do_steps(const struct step *step, const struct step *end);

/* The step behind those of the parent and of the child. */
static const struct step *fork_here(const struct step *step)
{
    const struct step *of_child = step + 1 + step->count, *end = of_child + step->prot;
    cloudabi_fd_t reading, writing, process;
    char byte = 0;
    cloudabi_iovec_t range = {&byte, 1};
    size_t count;
    check(cloudabi_sys_fd_create2(CLOUDABI_FILETYPE_FIFO, &reading, &writing));
    if (in_child(&process)) {
        check(cloudabi_sys_fd_read(reading, &range, 1, &count));
        do_steps(of_child, end);
        cloudabi_sys_proc_exit(has_differed ? 1 : 0);
    }
    do_steps(step + 1, of_child);
    check(cloudabi_sys_fd_write(writing, &range, 1, &count));
    compare_end(step, process);
    check(cloudabi_sys_fd_close(reading));
    check(cloudabi_sys_fd_close(writing));
    return end;
}

static void do_step(const struct step *step)
{
    switch ((enum kind)step->kind) {
    case MAP:
        map(step->address, step->count);
        break;
    case PROTECT:
        protect(step->address, step->count, step->prot);
        break;
    case UNMAP:
        check(cloudabi_sys_mem_unmap((void *)step->address, step->count * PAGE));
        break;
    case PUT:
        write_words(step);
        break;
    case CODE:
        write_code(step);
        break;
    case CALL:
        compare(step, step->wanted[0], call_code(step->given[0], step->given[1], step->address), "a result");
        break;
    case ENDS:
        call_in_child(step);
        break;
    case HAS:
        compare(step, step->wanted[0], number_at(step->address, step->count), "memory");
        break;
    case FORK:
        break;
    }
}

static void do_steps(const struct step *step, const struct step *end)
{
    while (step < end) {
        if (step->kind == FORK) {
            step = fork_here(step);
        } else {
            do_step(step);
            ++step;
        }
    }
}

void program_main(const argdata_t *arguments)
{
    (void)arguments;
    do_steps(steps, steps_end);
    put_number((uint64_t)(steps_end - steps), 10);
    put(" steps");
    tell();
    cloudabi_sys_proc_exit(has_differed ? 1 : 0);
}
