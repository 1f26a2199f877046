/*
 * Deeds by chance, the same in each run: threads come to a lock, to read, to write or to wait for a signal, some until a time; one that has the lock goes;
 * a signal comes; time goes on. A line has the deed, the lock, the condition's word and what each thread does, as cases/guests/lockers.h says. The
 * argument data is a sequence of a descriptor to write to and of a text.
 */
#include "../../guests/lockers.h"

#define DEEDS 400

static uint32_t chance(uint32_t below)
{
    static uint64_t state = 1;
    state = state * UINT64_C(6364136223846793005) + UINT64_C(1442695040888963407);
    return (uint32_t)(state >> 33) % below;
}

static char state_of(size_t which)
{
    return __atomic_load_n(&lockers[which].state, __ATOMIC_ACQUIRE);
}

/* The first thread from a place chosen by chance on that ended, or else that came to something and can go; MOST_LOCKERS where there is none. */
static size_t find(bool is_ended)
{
    size_t from = chance(MOST_LOCKERS);
    for (size_t i = 0; i < MOST_LOCKERS; ++i) {
        size_t which = (from + i) % MOST_LOCKERS;
        if ((state_of(which) == '-') == is_ended && state_of(which) != 'w')
            return which;
    }
    return MOST_LOCKERS;
}

static void say_deed(const char *deed, size_t which)
{
    say(deed);
    if (which < MOST_LOCKERS)
        say_letter((char)('a' + which));
    say(" ");
    say_word(&lock_word);
    say_condition();
    say(" ");
    for (size_t i = 0; i < MOST_LOCKERS; ++i)
        say_letter(state_of(i));
    end_line();
}

/* Times lie apart, so that no two come while the threads are busy. Who waits for a signal has the lock at once before. */
static void come(size_t which)
{
    static const uint8_t kinds[] = {RDLOCK, RDLOCK, WRLOCK, WRLOCK, CONDVAR, CONDVAR};
    static const char *const names[] = {"read", "read", "write", "write", "wait", "wait"};
    size_t kind = chance(lock_word == 0 ? 6 : 4);
    struct wait wait = {.kind = kinds[kind], .lock = &lock_word, .condvar = &condition_word, .clock = CLOUDABI_CLOCK_MONOTONIC};
    wait.has_deadline = chance(3) == 0;
    wait.deadline = (now() / MILLISECOND + 2 + chance(8)) * MILLISECOND + 100000 + which * 100000;
    begin_at(which, wait);
    say(names[kind]);
    say_deed(wait.has_deadline ? " for a time " : " ", which);
}

static void go(size_t which)
{
    go_on(which);
    say_deed("go ", which);
}

static void signal_by_chance(uint32_t count)
{
    signal_at(&condition_word, count);
    pause();
    say_deed(count == 0 ? "signal 0" : "signal", MOST_LOCKERS);
}

void program_main(const argdata_t *arguments)
{
    begin_program(arguments);
    has_whole_pauses = true;
    lockers_count = MOST_LOCKERS;
    for (size_t i = 0; i < MOST_LOCKERS; ++i)
        lockers[i].state = '-';
    for (int i = 0; i < DEEDS; ++i) {
        uint32_t deed = chance(10);
        size_t which = deed < 8 ? find(deed < 4) : MOST_LOCKERS;
        if (which < MOST_LOCKERS && deed < 4) {
            come(which);
        } else if (which < MOST_LOCKERS) {
            go(which);
        } else if (deed < 9) {
            signal_by_chance(chance(4) != 0);
        } else {
            for (int pauses = 0; pauses < 3; ++pauses)
                pause();
            say_deed("time", MOST_LOCKERS);
        }
    }
}
