/*
 * Eight pages beside each other that come and go, are written and get other rights by chance, the same each time, and code in them that is called after each
 * of a thousand changes, from places by chance. A copy of the code says what a call gives: sums, shifts, jumps and branches from page to page, until it
 * goes back. Where the copy says that it traps, a child is made for some of these. The program says how many calls were wrong: none.
 */
#include "../../guests/ends.h"

#define BASE UINT64_C(0x400000)
#define PAGE UINT64_C(4096)

enum { PAGES = 8, WORDS = 1024, CHANGES = 1000, CALLS = 3, MOST_STEPS = 100, MOST_CHILDREN = 60 };
enum { R = CLOUDABI_PROT_READ, W = CLOUDABI_PROT_WRITE, X = CLOUDABI_PROT_EXEC, SEGV = 13, ILL = 8 };
enum kind { NONE, ADD, SHIFT, XOR, JUMP, BRANCH, BACK };

/* The copy: of each page whether it is there, its rights and its words, of which all but those that draw_word names are NONE. */
struct instruction {
    enum kind kind;
    int32_t operand;
};

static struct page {
    bool is_there;
    uint32_t prot;
    struct instruction words[WORDS];
} pages[PAGES];

static uint64_t state = 1, calls, children, wrong;

static uint64_t draw(uint64_t below)
{
    state ^= state >> 12;
    state ^= state << 25;
    state ^= state >> 27;
    return (state * UINT64_C(0x2545f4914f6cdd1d) >> 32) % below;
}

/* One of the first eight words of a page, or of its last eight, from which the code goes on into the next page. */
static uint64_t draw_word(void)
{
    uint64_t word = draw(16);
    return word < 8 ? word : WORDS - 16 + word;
}

static uint32_t encoded(struct instruction instruction)
{
    uint32_t operand = (uint32_t)instruction.operand;
    switch (instruction.kind) {
    case ADD:
        return 0x00050513 | operand << 20; /* addi a0, a0, operand */
    case SHIFT:
        return 0x00151513; /* slli a0, a0, 1 */
    case XOR:
        return 0x00054513 | operand << 20; /* xori a0, a0, operand */
    case JUMP:
        return 0x0000006f | (operand >> 31) << 31 | (operand >> 1 & 0x3ff) << 21 | (operand >> 11 & 1) << 20 | (operand >> 12 & 0xff) << 12;
    case BRANCH:
        return 0x00059463; /* bne a1, zero, . + 8 */
    case BACK:
        return 0x00008067;
    default:
        return 0;
    }
}

/* The eighth word is a jump or leads back, since behind it there is no instruction. */
static struct instruction draw_instruction(uint64_t page, uint64_t word)
{
    uint64_t drawn = word == 7 ? 13 + draw(3) : draw(16);
    if (drawn < 7)
        return (struct instruction){ADD, (int32_t)draw(2048)};
    if (drawn < 8)
        return (struct instruction){SHIFT, 0};
    if (drawn < 10)
        return (struct instruction){XOR, (int32_t)draw(2048)};
    if (drawn < 12)
        return (struct instruction){BRANCH, 0};
    if (drawn < 14) {
        uint64_t target = draw(PAGES) * PAGE + draw_word() * 4;
        return (struct instruction){JUMP, (int32_t)(target - page * PAGE - word * 4)};
    }
    return (struct instruction){BACK, 0};
}

/* Changes. */

static void protect(uint64_t page, uint32_t prot)
{
    expect(cloudabi_sys_mem_protect((void *)(BASE + page * PAGE), PAGE, prot));
    pages[page].prot = prot;
}

static void write_word(uint64_t page, uint64_t word)
{
    struct instruction instruction = draw_instruction(page, word);
    pages[page].words[word] = instruction;
    *(volatile uint32_t *)(BASE + page * PAGE + word * 4) = encoded(instruction);
}

static void map(uint64_t page)
{
    void *memory;
    expect(cloudabi_sys_mem_map((void *)(BASE + page * PAGE), PAGE, R | W, CLOUDABI_MAP_ANON | CLOUDABI_MAP_FIXED | CLOUDABI_MAP_PRIVATE, 0, 0,
                                &memory));
    pages[page].is_there = true;
    pages[page].prot = R | W;
    for (uint64_t word = 0; word < 8; ++word) {
        write_word(page, word);
        write_word(page, WORDS - 8 + word);
    }
    if (draw(4) != 0)
        protect(page, draw(2) ? R | X : X);
}

static void change_words(uint64_t page)
{
    uint32_t prot = pages[page].prot;
    if (!(prot & W))
        protect(page, W);
    for (uint64_t count = 1 + draw(3); count > 0; --count)
        write_word(page, draw_word());
    if (!(prot & W))
        protect(page, prot);
}

static void change(void)
{
    static const uint32_t prots[] = {0, R, R | W, W, R | X, X, R | X, X};
    uint64_t page = draw(PAGES), what = draw(8);
    if (!pages[page].is_there) {
        map(page);
    } else if (what < 4) {
        change_words(page);
    } else if (what < 6) {
        protect(page, prots[draw(8)]);
    } else if (what < 7) {
        map(page);
    } else {
        expect(cloudabi_sys_mem_unmap((void *)(BASE + page * PAGE), PAGE));
        pages[page].is_there = false;
    }
}

/* Calls. */

/* What the copy says: 0 and the number where it goes back, a signal, or 1 where it goes round for long. */
static uint64_t signal_of(uint64_t at, uint64_t *number, uint64_t second)
{
    for (uint64_t steps = 0; steps < MOST_STEPS; ++steps) {
        if (at >= PAGES * PAGE || !pages[at / PAGE].is_there || !(pages[at / PAGE].prot & X))
            return SEGV;
        struct instruction instruction = pages[at / PAGE].words[at % PAGE / 4];
        uint64_t next = at + 4;
        switch (instruction.kind) {
        case ADD:
            *number += (uint64_t)instruction.operand;
            break;
        case SHIFT:
            *number *= 2;
            break;
        case XOR:
            *number ^= (uint64_t)instruction.operand;
            break;
        case JUMP:
            next = at + (uint64_t)(int64_t)instruction.operand;
            break;
        case BRANCH:
            next = second != 0 ? at + 8 : at + 4;
            break;
        case BACK:
            return 0;
        default:
            return ILL;
        }
        at = next;
    }
    return 1;
}

static uint64_t call_code(uint64_t at, uint64_t number, uint64_t second)
{
    register uint64_t a0 __asm__("a0") = number;
    register uint64_t a1 __asm__("a1") = second;
    __asm__ volatile("jalr %2" : "+r"(a0) : "r"(a1), "r"(BASE + at) : "ra", "memory");
    return a0;
}

static uint64_t signal_of_child(uint64_t at, uint64_t second)
{
    cloudabi_fd_t process;
    cloudabi_tid_t thread;
    cloudabi_subscription_t subscription = {.kind = CLOUDABI_EVENTTYPE_PROC_TERMINATE};
    cloudabi_event_t event;
    size_t events;
    expect(cloudabi_sys_proc_fork(&process, &thread));
    if (process == CLOUDABI_PROCESS_CHILD) {
        call_code(at, 0, second);
        cloudabi_sys_proc_exit(0);
    }
    subscription.proc_terminate.fd = process;
    expect(cloudabi_sys_poll(&subscription, &event, 1, &events));
    expect(cloudabi_sys_fd_close(process));
    return event.proc_terminate.signal;
}

static void call(void)
{
    uint64_t at = draw(PAGES) * PAGE + draw_word() * 4, second = draw(2), first = draw(1000), number = first;
    uint64_t signal = signal_of(at, &number, second);
    if (signal == 0) {
        ++calls;
        wrong += call_code(at, first, second) != number;
    } else if (signal != 1 && children < MOST_CHILDREN && draw(16) == 0) {
        ++children;
        wrong += signal_of_child(at, second) != signal;
    }
}

void program_main(const argdata_t *arguments)
{
    (void)arguments;
    for (uint64_t i = 0; i < CHANGES; ++i) {
        change();
        for (uint64_t j = 0; j < CALLS; ++j)
            call();
    }
    say_number(wrong);
    say(" wrong");
    if (calls < CHANGES / 2 || children < MOST_CHILDREN)
        say(", and too few calls");
    end_line();
    cloudabi_sys_proc_exit(wrong == 0 ? 0 : 2);
}
