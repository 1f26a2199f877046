/* picolibc's setjmp.h, with the jumps that keep the blocked signals. */
#include_next <setjmp.h>

#ifndef _GUEST_SETJMP_H
#define _GUEST_SETJMP_H

#include <signal.h>

#ifdef __cplusplus
extern "C" {
#endif

typedef struct {
    jmp_buf registers;
    unsigned long blocked;
    int is_kept;
} sigjmp_buf[1];

/* Keeps the signals that are blocked, where they are asked for. */
void __keep_signals(sigjmp_buf place, int is_kept);
void siglongjmp(sigjmp_buf place, int value) __attribute__((__noreturn__));
#define sigsetjmp(place, keeps) (__keep_signals(place, keeps), setjmp((place)->registers))
#ifndef _setjmp
#define _setjmp(place) setjmp(place)
#define _longjmp(place, value) longjmp(place, value)
#endif

#ifdef __cplusplus
}
#endif

#endif
