/* Waits at a condition variable that nobody signals until a time, and looks at the clock. It exits with 0 where all is as it should be. */
#include "argdata.h"

static uint32_t lock = UINT32_C(0x40000001), condvar;

void program_main(const argdata_t *arguments)
{
    cloudabi_subscription_t subscriptions[2] = {{.userdata = 1, .kind = CLOUDABI_EVENTTYPE_CONDVAR}, {.userdata = 2, .kind = CLOUDABI_EVENTTYPE_CLOCK}};
    cloudabi_event_t events[2] = {{0}};
    cloudabi_timestamp_t time = 0;
    size_t count = 0;
    (void)arguments;
    subscriptions[0].condvar.condvar = &condvar;
    subscriptions[0].condvar.lock = &lock;
    subscriptions[0].condvar.condvar_scope = CLOUDABI_SCOPE_PRIVATE;
    subscriptions[0].condvar.lock_scope = CLOUDABI_SCOPE_PRIVATE;
    subscriptions[1].clock.clock = CLOUDABI_CLOCK_MONOTONIC;
    subscriptions[1].clock.timeout = 5000000;
    subscriptions[1].clock.flags = CLOUDABI_SUBSCRIPTION_CLOCK_ABSTIME;
    cloudabi_errno_t error = cloudabi_sys_poll(subscriptions, events, 2, &count);
    cloudabi_sys_clock_time_get(CLOUDABI_CLOCK_MONOTONIC, 0, &time);
    bool is_so = error == CLOUDABI_ESUCCESS && count == 1 && events[0].userdata == 1 && events[0].error == CLOUDABI_ETIMEDOUT &&
                 events[0].kind == CLOUDABI_EVENTTYPE_CONDVAR && lock == UINT32_C(0x40000001) && time == 5002000;
    cloudabi_sys_proc_exit(is_so ? 0 : 1);
}
