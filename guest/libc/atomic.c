/*
 * Atomic operations that GCC calls as functions: those of one and two bytes, for which the machine has no instruction of its own, and all
 * where a program is compiled for a machine without any. GCC knows the names, so they are given to functions with others.
 */
#include <stdbool.h>
#include <stdint.h>

#define ORDER __ATOMIC_SEQ_CST

/* One and two bytes are a part of a word, which is exchanged as a whole. */
#define DEFINE_EXCHANGE_OF_PART(type, size)                                                                                        \
    static bool exchanged_##size(volatile void *at, type *wanted, type value)                                                      \
    {                                                                                                                              \
        uint32_t *word = (uint32_t *)((uintptr_t)at & ~(uintptr_t)3);                                                              \
        unsigned shift = ((uintptr_t)at & 3) * 8;                                                                                  \
        uint32_t mask = (uint32_t)(type)~(type)0 << shift, old = __atomic_load_n(word, ORDER);                                     \
        while ((type)(old >> shift) == *wanted) {                                                                                  \
            if (__atomic_compare_exchange_n(word, &old, (old & ~mask) | (uint32_t)value << shift, false, ORDER, ORDER))            \
                return true;                                                                                                       \
        }                                                                                                                          \
        *wanted = (type)(old >> shift);                                                                                            \
        return false;                                                                                                              \
    }

#define DEFINE_EXCHANGE_OF_WHOLE(type, size)                                                                                       \
    static bool exchanged_##size(volatile void *at, type *wanted, type value)                                                      \
    {                                                                                                                              \
        return __atomic_compare_exchange_n((volatile type *)at, wanted, value, false, ORDER, ORDER);                               \
    }

/* What was there, and what is there then: a function of the operation's two values takes its place. */
#define DEFINE_CHANGE(type, size, name, result)                                                                                    \
    type fetch_##name##_##size(volatile void *at, type value, int order) __asm__("__atomic_fetch_" #name "_" #size);               \
    type fetch_##name##_##size(volatile void *at, type value, int order)                                                           \
    {                                                                                                                              \
        type old = *(volatile type *)at;                                                                                           \
        (void)order;                                                                                                               \
        while (!exchanged_##size(at, &old, (type)(result)))                                                                        \
            ;                                                                                                                      \
        return old;                                                                                                                \
    }                                                                                                                              \
    type name##_fetch_##size(volatile void *at, type value, int order) __asm__("__atomic_" #name "_fetch_" #size);                 \
    type name##_fetch_##size(volatile void *at, type value, int order)                                                             \
    {                                                                                                                              \
        type old = fetch_##name##_##size(at, value, order);                                                                        \
        return (type)(result);                                                                                                     \
    }                                                                                                                              \
    type sync_fetch_##name##_##size(volatile void *at, type value) __asm__("__sync_fetch_and_" #name "_" #size);                   \
    type sync_fetch_##name##_##size(volatile void *at, type value)                                                                 \
    {                                                                                                                              \
        return fetch_##name##_##size(at, value, ORDER);                                                                            \
    }                                                                                                                              \
    type sync_##name##_fetch_##size(volatile void *at, type value) __asm__("__sync_" #name "_and_fetch_" #size);                   \
    type sync_##name##_fetch_##size(volatile void *at, type value)                                                                 \
    {                                                                                                                              \
        return name##_fetch_##size(at, value, ORDER);                                                                              \
    }

#define DEFINE_EXCHANGES(type, size)                                                                                               \
    type exchange_##size(volatile void *at, type value, int order) __asm__("__atomic_exchange_" #size);                            \
    type exchange_##size(volatile void *at, type value, int order)                                                                 \
    {                                                                                                                              \
        type old = *(volatile type *)at;                                                                                           \
        (void)order;                                                                                                               \
        while (!exchanged_##size(at, &old, value))                                                                                 \
            ;                                                                                                                      \
        return old;                                                                                                                \
    }                                                                                                                              \
    bool compare_##size(volatile void *at, void *wanted, type value, bool is_weak, int done, int failed)                           \
        __asm__("__atomic_compare_exchange_" #size);                                                                               \
    bool compare_##size(volatile void *at, void *wanted, type value, bool is_weak, int done, int failed)                           \
    {                                                                                                                              \
        (void)is_weak, (void)done, (void)failed;                                                                                   \
        return exchanged_##size(at, wanted, value);                                                                                \
    }                                                                                                                              \
    type sync_swap_##size(volatile void *at, type wanted, type value) __asm__("__sync_val_compare_and_swap_" #size);               \
    type sync_swap_##size(volatile void *at, type wanted, type value)                                                              \
    {                                                                                                                              \
        exchanged_##size(at, &wanted, value);                                                                                      \
        return wanted;                                                                                                             \
    }                                                                                                                              \
    bool sync_compare_##size(volatile void *at, type wanted, type value) __asm__("__sync_bool_compare_and_swap_" #size);           \
    bool sync_compare_##size(volatile void *at, type wanted, type value)                                                           \
    {                                                                                                                              \
        return exchanged_##size(at, &wanted, value);                                                                               \
    }                                                                                                                              \
    type sync_test_##size(volatile void *at, type value) __asm__("__sync_lock_test_and_set_" #size);                               \
    type sync_test_##size(volatile void *at, type value)                                                                           \
    {                                                                                                                              \
        return exchange_##size(at, value, ORDER);                                                                                  \
    }

#define DEFINE_ALL(type, size)                                                                                                     \
    DEFINE_EXCHANGES(type, size)                                                                                                   \
    DEFINE_CHANGE(type, size, add, old + value)                                                                                    \
    DEFINE_CHANGE(type, size, sub, old - value)                                                                                    \
    DEFINE_CHANGE(type, size, and, old & value)                                                                                    \
    DEFINE_CHANGE(type, size, or, old | value)                                                                                     \
    DEFINE_CHANGE(type, size, xor, old ^ value)                                                                                    \
    DEFINE_CHANGE(type, size, nand, ~(old & value))

DEFINE_EXCHANGE_OF_PART(uint8_t, 1)
DEFINE_EXCHANGE_OF_PART(uint16_t, 2)
DEFINE_EXCHANGE_OF_WHOLE(uint32_t, 4)
DEFINE_EXCHANGE_OF_WHOLE(uint64_t, 8)
DEFINE_ALL(uint8_t, 1)
DEFINE_ALL(uint16_t, 2)
DEFINE_ALL(uint32_t, 4)
DEFINE_ALL(uint64_t, 8)
