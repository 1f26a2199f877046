/* picolibc's sched.h, with the functions that it keeps for systems with threads. */
#include_next <sched.h>

#ifndef _GUEST_SCHED_H
#define _GUEST_SCHED_H

#ifdef __cplusplus
extern "C" {
#endif

int sched_yield(void);
int sched_get_priority_max(int policy);
int sched_get_priority_min(int policy);

#ifdef __cplusplus
}
#endif

#endif
