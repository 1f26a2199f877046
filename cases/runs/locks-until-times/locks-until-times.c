/*
 * Waits for a lock that is never let go, until times that are over, that is now, that come next and later; then at a condition variable until a time that
 * is over. It exits with 0 where each event and each word is as it should be, and else with the number of the first one that isn't.
 */
#include "argdata.h"

static uint32_t taken = UINT32_C(0x40000002), own = UINT32_C(0x40000001), condvar;

static void expect(bool is_so, uint32_t number)
{
    if (!is_so)
        cloudabi_sys_proc_exit(number);
}

/* The error of the event of a poll with a time of the clock MONOTONIC. */
static cloudabi_errno_t wait_until(cloudabi_subscription_t first, uint64_t moment)
{
    cloudabi_subscription_t subscriptions[2] = {first, {.kind = CLOUDABI_EVENTTYPE_CLOCK}};
    cloudabi_event_t events[2];
    size_t count;
    subscriptions[1].clock.clock = CLOUDABI_CLOCK_MONOTONIC;
    subscriptions[1].clock.timeout = moment;
    subscriptions[1].clock.flags = CLOUDABI_SUBSCRIPTION_CLOCK_ABSTIME;
    cloudabi_errno_t error = cloudabi_sys_poll(subscriptions, events, 2, &count);
    return error == CLOUDABI_ESUCCESS && count == 1 && events[0].kind == first.kind ? events[0].error : CLOUDABI_ENOSYS;
}

static cloudabi_subscription_t lock(uint8_t kind, uint32_t *word)
{
    cloudabi_subscription_t made = {.kind = kind};
    made.lock.lock = word;
    made.lock.scope = CLOUDABI_SCOPE_PRIVATE;
    return made;
}

void program_main(const argdata_t *arguments)
{
    cloudabi_subscription_t writing = lock(CLOUDABI_EVENTTYPE_LOCK_WRLOCK, &taken), reading = lock(CLOUDABI_EVENTTYPE_LOCK_RDLOCK, &taken);
    cloudabi_subscription_t condition = {.kind = CLOUDABI_EVENTTYPE_CONDVAR};
    condition.condvar.condvar = &condvar;
    condition.condvar.lock = &own;
    condition.condvar.condvar_scope = CLOUDABI_SCOPE_PRIVATE;
    condition.condvar.lock_scope = CLOUDABI_SCOPE_PRIVATE;
    (void)arguments;
    expect(wait_until(writing, 0) == CLOUDABI_ETIMEDOUT && taken == UINT32_C(0xc0000002), 1);
    expect(wait_until(reading, 3000) == CLOUDABI_ETIMEDOUT, 2);
    expect(wait_until(writing, 5001) == CLOUDABI_ETIMEDOUT, 3);
    expect(wait_until(writing, 20000) == CLOUDABI_ETIMEDOUT && taken == UINT32_C(0xc0000002), 4);
    expect(wait_until(condition, 0) == CLOUDABI_ETIMEDOUT && own == UINT32_C(0x40000001) && condvar == 1, 5);
    expect(wait_until(lock(CLOUDABI_EVENTTYPE_LOCK_WRLOCK, &own), 0) == CLOUDABI_EDEADLK, 6);
    expect(cloudabi_sys_lock_unlock(&taken, CLOUDABI_SCOPE_PRIVATE) == CLOUDABI_EPERM && taken == UINT32_C(0xc0000002), 7);
    expect(cloudabi_sys_condvar_signal(&condvar, CLOUDABI_SCOPE_PRIVATE, 1) == CLOUDABI_ESUCCESS && condvar == 0, 8);
    expect(cloudabi_sys_lock_unlock(&own, CLOUDABI_SCOPE_PRIVATE) == CLOUDABI_ESUCCESS && own == 0, 9);
}
