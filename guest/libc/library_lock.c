/* Locks of the library's own, and that of picolibc, which it calls by these names. */
#include "library_lock.h"
#include "lock_words.h"

#include <sys/lock.h>

struct library_lock streams_lock, children_lock, descriptors_lock, allocation_lock;
bool has_threads;

void take_lock(struct library_lock *lock)
{
    if (!has_word(&lock->word))
        lock_word(&lock->word, true, 0);
    ++lock->holds;
}

bool try_to_take(struct library_lock *lock)
{
    if (!has_word(&lock->word) && !try_lock_word(&lock->word, true))
        return false;
    ++lock->holds;
    return true;
}

void let_go(struct library_lock *lock)
{
    if (has_word(&lock->word) && --lock->holds == 0)
        unlock_word(&lock->word);
}

struct __lock {
    struct library_lock lock;
};

struct __lock __lock___libc_recursive_mutex;

static struct library_lock *const all[] = {
    &__lock___libc_recursive_mutex.lock, &streams_lock, &children_lock, &descriptors_lock, &allocation_lock,
};

#define COUNT (sizeof all / sizeof *all)

void take_all_locks(void)
{
    for (unsigned i = 0; has_threads && i < COUNT; ++i)
        take_lock(all[i]);
}

void let_go_of_all(void)
{
    for (unsigned i = COUNT; i-- > 0;)
        let_go(all[i]);
}

/* What picolibc makes a lock of is there from the start. */

void __retarget_lock_init(_LOCK_T *lock)
{
    *lock = &__lock___libc_recursive_mutex;
}

void __retarget_lock_init_recursive(_LOCK_T *lock)
{
    __retarget_lock_init(lock);
}

void __retarget_lock_close(_LOCK_T lock)
{
    (void)lock;
}

void __retarget_lock_close_recursive(_LOCK_T lock)
{
    (void)lock;
}

void __retarget_lock_acquire(_LOCK_T lock)
{
    hold(&lock->lock);
}

void __retarget_lock_acquire_recursive(_LOCK_T lock)
{
    hold(&lock->lock);
}

int __retarget_lock_try_acquire(_LOCK_T lock)
{
    return !has_threads || try_to_take(&lock->lock);
}

int __retarget_lock_try_acquire_recursive(_LOCK_T lock)
{
    return __retarget_lock_try_acquire(lock);
}

void __retarget_lock_release(_LOCK_T lock)
{
    let_go(&lock->lock);
}

void __retarget_lock_release_recursive(_LOCK_T lock)
{
    let_go(&lock->lock);
}
