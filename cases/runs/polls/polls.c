/*
 * Polls clocks, one after another. The argument data is a sequence of polls, each of them a sequence of the clock, the flags and the
 * timeout. It exits with 0 where each poll gave its event, with a poll's place, counted from 1, where that gave something else, and with
 * 255 where the argument data is something else.
 */
#include "argdata.h"

static int64_t next_number(argdata_rest_t *rest)
{
    argdata_t item;
    int64_t number;
    if (!argdata_seq_next(rest, &item) || !argdata_get_int(&item, &number))
        cloudabi_sys_proc_exit(255);
    return number;
}

/* Waits for the time that the numbers say, and checks that the only event is of it. */
static bool is_polled(argdata_rest_t *numbers, uint64_t place)
{
    cloudabi_subscription_t subscription = {.userdata = place, .kind = CLOUDABI_EVENTTYPE_CLOCK};
    subscription.clock.clock = (uint32_t)next_number(numbers);
    subscription.clock.flags = (uint16_t)next_number(numbers);
    subscription.clock.timeout = (uint64_t)next_number(numbers);

    cloudabi_event_t event = {.userdata = ~place, .error = UINT16_MAX, .kind = UINT8_MAX};
    size_t events = 0;
    return cloudabi_sys_poll(&subscription, &event, 1, &events) == CLOUDABI_ESUCCESS && events == 1 && event.userdata == place &&
           event.error == CLOUDABI_ESUCCESS && event.kind == CLOUDABI_EVENTTYPE_CLOCK;
}

void program_main(const argdata_t *arguments)
{
    argdata_t poll;
    argdata_rest_t polls, numbers;
    if (!argdata_seq_begin(arguments, &polls))
        cloudabi_sys_proc_exit(255);
    for (uint32_t place = 1; argdata_seq_next(&polls, &poll); ++place) {
        if (!argdata_seq_begin(&poll, &numbers))
            cloudabi_sys_proc_exit(255);
        if (!is_polled(&numbers, place))
            cloudabi_sys_proc_exit(place);
    }
}
