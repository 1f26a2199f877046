/* What is done once, and values that each thread has of its own. */
#define _GNU_SOURCE
#include "lock_words.h"
#include "thread.h"

#include <errno.h>
#include <limits.h>
#include <pthread.h>
#include <stdbool.h>

/* Who comes while it is done waits. A thread that ends in it leaves it to the next. */

static void give_up(void *once)
{
    unlock_word(&((pthread_once_t *)once)->word);
}

int pthread_once(pthread_once_t *once, void (*function)(void))
{
    if (__atomic_load_n(&once->is_done, __ATOMIC_ACQUIRE))
        return 0;
    int error = lock_word(&once->word, true, NULL);
    if (error != 0)
        return error;
    if (!once->is_done) {
        pthread_cleanup_push(give_up, once);
        function();
        pthread_cleanup_pop(0);
        __atomic_store_n(&once->is_done, 1, __ATOMIC_RELEASE);
    }
    return unlock_word(&once->word);
}

/* Keys. A value counts as long as the key is the one that it was given for: a number may be a further key's after it was deleted. */

static struct {
    unsigned use; /* odd while it is a key; it rises by one as it is made and as it is deleted */
    void (*function)(void *);
} keys[PTHREAD_KEYS_MAX];

static _Thread_local struct {
    unsigned use;
    const void *value;
} values[PTHREAD_KEYS_MAX];

static unsigned use_of(pthread_key_t key)
{
    return key < PTHREAD_KEYS_MAX ? __atomic_load_n(&keys[key].use, __ATOMIC_ACQUIRE) : 0;
}

int pthread_key_create(pthread_key_t *key, void (*function)(void *))
{
    for (pthread_key_t at = 0; at < PTHREAD_KEYS_MAX; ++at) {
        unsigned use = use_of(at);
        if (use % 2 == 0 && __atomic_compare_exchange_n(&keys[at].use, &use, use + 1, false, __ATOMIC_ACQ_REL, __ATOMIC_RELAXED)) {
            keys[at].function = function;
            *key = at;
            return 0;
        }
    }
    return EAGAIN;
}

int pthread_key_delete(pthread_key_t key)
{
    if (use_of(key) % 2 == 0)
        return EINVAL;
    __atomic_add_fetch(&keys[key].use, 1, __ATOMIC_RELEASE);
    return 0;
}

void *pthread_getspecific(pthread_key_t key)
{
    unsigned use = use_of(key);
    return use % 2 == 1 && values[key].use == use ? (void *)values[key].value : NULL;
}

int pthread_setspecific(pthread_key_t key, const void *value)
{
    unsigned use = use_of(key);
    if (use % 2 == 0)
        return EINVAL;
    values[key].use = use;
    values[key].value = value;
    return 0;
}

/* Calls the function of one key where the thread has a value for it. */
static bool end_value(pthread_key_t key)
{
    void *value = pthread_getspecific(key);
    void (*function)(void *) = keys[key].function;
    if (value == NULL || function == NULL)
        return false;
    values[key].value = NULL;
    function(value);
    return true;
}

/* A function may set values anew, so they are looked at several times. */
void end_own_values(void)
{
    bool is_any = true;
    for (int round = 0; is_any && round < PTHREAD_DESTRUCTOR_ITERATIONS; ++round) {
        is_any = false;
        for (pthread_key_t key = 0; key < PTHREAD_KEYS_MAX; ++key)
            is_any |= end_value(key);
    }
}
