/* Threads: beginning and end, and all that they wait for each other with. */
#include "check.h"

#include <pthread.h>
#include <semaphore.h>
#include <stdint.h>
#include <stdlib.h>
#include <threads.h>
#include <time.h>
#include <unistd.h>

#define THREADS 8

static pthread_mutex_t mutex = PTHREAD_MUTEX_INITIALIZER;
static pthread_cond_t condition = PTHREAD_COND_INITIALIZER;
static int count, is_open;

/* A time of a clock, so many milliseconds from now on. */
static struct timespec from_now(clockid_t clock, long milliseconds)
{
    struct timespec time;
    clock_gettime(clock, &time);
    time.tv_nsec += milliseconds % 1000 * 1000000L;
    time.tv_sec += milliseconds / 1000 + time.tv_nsec / 1000000000L;
    time.tv_nsec %= 1000000000L;
    return time;
}

static void wait_a_while(void)
{
    nanosleep(&(struct timespec){.tv_nsec = 20000000}, NULL);
}

/* ---- beginning and end */

static _Thread_local int own_value = 7;
static _Thread_local char own_bytes[100];

static void *locals(void *argument)
{
    int is_fresh = own_value == 7 && own_bytes[99] == 0 && errno == 0;
    own_value = (int)(intptr_t)argument;
    own_bytes[99] = 1;
    errno = own_value;
    wait_a_while();
    return (void *)(intptr_t)(is_fresh && own_value == (int)(intptr_t)argument && errno == own_value);
}

static void *leaves(void *argument)
{
    pthread_exit(argument);
}

static void *own_self(void *argument)
{
    *(pthread_t *)argument = pthread_self();
    return NULL;
}

static void *deep(void *argument)
{
    volatile char bytes[150000];
    bytes[0] = bytes[sizeof bytes - 1] = 1;
    return bytes[0] == 1 ? argument : NULL;
}

static void beginning_and_end(void)
{
    pthread_t threads[THREADS], self;
    void *value;
    own_value = 9;
    for (intptr_t i = 0; i < THREADS; ++i)
        CHECK(pthread_create(&threads[i], NULL, locals, (void *)(i + 20)) == 0);
    for (int i = 0; i < THREADS; ++i)
        CHECK(pthread_join(threads[i], &value) == 0 && value == (void *)1);
    CHECK(own_value == 9 && own_bytes[99] == 0);
    CHECK(pthread_create(&threads[0], NULL, leaves, &value) == 0 && pthread_join(threads[0], &value) == 0 && value == &value);
    CHECK(pthread_create(&threads[0], NULL, own_self, &self) == 0 && pthread_join(threads[0], NULL) == 0 && pthread_equal(self, threads[0]));
    CHECK(!pthread_equal(self, pthread_self()) && pthread_join(pthread_self(), NULL) == EDEADLK);
    CHECK(pthread_create(&threads[0], NULL, deep, &value) == 0 && pthread_join(threads[0], &value) == 0 && value == &value);
    for (int i = 0; i < 200; ++i) {
        if (pthread_create(&threads[0], NULL, leaves, NULL) != 0 || pthread_join(threads[0], NULL) != 0)
            CHECK(!"made and joined");
    }
}

static void *posts(void *argument)
{
    sem_post(argument);
    return NULL;
}

static void detached(void)
{
    pthread_attr_t attributes;
    pthread_t thread;
    sem_t ended;
    CHECK(sem_init(&ended, 0, 0) == 0 && pthread_attr_init(&attributes) == 0);
    CHECK(pthread_attr_setdetachstate(&attributes, PTHREAD_CREATE_DETACHED) == 0 && pthread_attr_setstacksize(&attributes, 65536) == 0);
    CHECK(pthread_attr_setstacksize(&attributes, 1) == EINVAL);
    for (int i = 0; i < 100; ++i) {
        if (pthread_create(&thread, &attributes, posts, &ended) != 0)
            CHECK(!"made detached");
        sem_wait(&ended);
    }
    CHECK(pthread_create(&thread, NULL, posts, &ended) == 0 && pthread_detach(thread) == 0 && sem_wait(&ended) == 0);
    CHECK(pthread_create(&thread, NULL, posts, &ended) == 0 && sem_wait(&ended) == 0);
    wait_a_while();
    CHECK(pthread_detach(thread) == 0);
}

/* ---- mutexes */

static void *adds(void *argument)
{
    for (int i = 0; i < 1000; ++i) {
        pthread_mutex_lock(argument);
        int now = count;
        if (i % 100 == 0)
            sched_yield();
        count = now + 1;
        pthread_mutex_unlock(argument);
    }
    return NULL;
}

static void count_with(pthread_mutex_t *with)
{
    pthread_t threads[THREADS];
    count = 0;
    for (int i = 0; i < THREADS; ++i)
        CHECK(pthread_create(&threads[i], NULL, adds, with) == 0);
    for (int i = 0; i < THREADS; ++i)
        CHECK(pthread_join(threads[i], NULL) == 0);
    CHECK(count == 1000 * THREADS);
}

static pthread_mutex_t of_kind(int kind)
{
    pthread_mutexattr_t attributes;
    pthread_mutex_t made;
    int found;
    CHECK(pthread_mutexattr_init(&attributes) == 0 && pthread_mutexattr_settype(&attributes, kind) == 0);
    CHECK(pthread_mutexattr_gettype(&attributes, &found) == 0 && found == kind && pthread_mutex_init(&made, &attributes) == 0);
    return made;
}

static void *tries(void *argument)
{
    int error = pthread_mutex_trylock(argument);
    if (error == 0)
        pthread_mutex_unlock(argument);
    return (void *)(intptr_t)error;
}

static void *unlocks(void *argument)
{
    return (void *)(intptr_t)pthread_mutex_unlock(argument);
}

static void *locks_for_a_time(void *argument)
{
    struct timespec time = from_now(CLOCK_REALTIME, 30);
    int error = pthread_mutex_timedlock(argument, &time);
    if (error == 0)
        pthread_mutex_unlock(argument);
    return (void *)(intptr_t)error;
}

/* What another thread is answered. */
static int in_thread(void *(*function)(void *), void *argument)
{
    pthread_t thread;
    void *value = NULL;
    CHECK(pthread_create(&thread, NULL, function, argument) == 0 && pthread_join(thread, &value) == 0);
    return (int)(intptr_t)value;
}

static void mutexes(void)
{
    pthread_mutex_t checked = of_kind(PTHREAD_MUTEX_ERRORCHECK), again = of_kind(PTHREAD_MUTEX_RECURSIVE), plain = of_kind(PTHREAD_MUTEX_NORMAL);
    struct timespec time = {.tv_nsec = 1000000000L}, over = {0};
    count_with(&mutex);
    count_with(&checked);
    count_with(&again);
    CHECK(pthread_mutex_lock(&checked) == 0 && pthread_mutex_lock(&checked) == EDEADLK && pthread_mutex_trylock(&checked) == EBUSY);
    CHECK(in_thread(tries, &checked) == EBUSY && in_thread(unlocks, &checked) == EPERM && in_thread(locks_for_a_time, &checked) == ETIMEDOUT);
    CHECK(pthread_mutex_unlock(&checked) == 0 && pthread_mutex_unlock(&checked) == EPERM && in_thread(tries, &checked) == 0);
    CHECK(pthread_mutex_lock(&again) == 0 && pthread_mutex_lock(&again) == 0 && pthread_mutex_trylock(&again) == 0);
    CHECK(pthread_mutex_unlock(&again) == 0 && pthread_mutex_unlock(&again) == 0 && in_thread(tries, &again) == EBUSY);
    CHECK(in_thread(unlocks, &again) == EPERM && pthread_mutex_unlock(&again) == 0 && in_thread(tries, &again) == 0);
    CHECK(pthread_mutex_unlock(&again) == EPERM && pthread_mutex_timedlock(&plain, &over) == 0);
    CHECK(in_thread(locks_for_a_time, &plain) == ETIMEDOUT && in_thread(tries, &plain) == EBUSY);
    CHECK(pthread_mutex_unlock(&plain) == 0 && in_thread(tries, &plain) == 0 && pthread_mutex_timedlock(&plain, &time) == 0);
    CHECK(pthread_mutex_unlock(&plain) == 0 && pthread_mutex_lock(&checked) == 0 && pthread_mutex_timedlock(&checked, &over) == EDEADLK);
    CHECK(pthread_mutex_unlock(&checked) == 0 && pthread_mutex_destroy(&checked) == 0 && pthread_mutex_destroy(&again) == 0);
}

/* ---- condition variables */

static int waiting, woken;

static void *waits(void *argument)
{
    pthread_mutex_lock(&mutex);
    ++waiting;
    while (!is_open)
        pthread_cond_wait(&condition, &mutex);
    ++woken;
    pthread_mutex_unlock(&mutex);
    return argument;
}

/* Waits until so many do. */
static void wait_for_waiting(int many)
{
    pthread_mutex_lock(&mutex);
    while (waiting < many) {
        pthread_mutex_unlock(&mutex);
        wait_a_while();
        pthread_mutex_lock(&mutex);
    }
    pthread_mutex_unlock(&mutex);
}

static void *opens(void *argument)
{
    wait_a_while();
    pthread_mutex_lock(&mutex);
    is_open = 1;
    pthread_cond_signal(&condition);
    pthread_mutex_unlock(&mutex);
    return argument;
}

static int wait_until(pthread_cond_t *at, const struct timespec *time)
{
    int error = 0;
    pthread_mutex_lock(&mutex);
    while (!is_open && error == 0)
        error = pthread_cond_timedwait(at, &mutex, time);
    CHECK(pthread_mutex_trylock(&mutex) == EBUSY);
    pthread_mutex_unlock(&mutex);
    return error;
}

static void times_of_conditions(void)
{
    pthread_condattr_t attributes;
    pthread_cond_t monotonic;
    pthread_t thread;
    struct timespec time = from_now(CLOCK_REALTIME, 20), early = time, far = from_now(CLOCK_REALTIME, 1000000), wrong = {.tv_nsec = -1};
    is_open = 0;
    CHECK(wait_until(&condition, &time) == ETIMEDOUT && wait_until(&condition, &early) == ETIMEDOUT && wait_until(&condition, &wrong) == EINVAL);
    clock_gettime(CLOCK_REALTIME, &early);
    CHECK(early.tv_sec > time.tv_sec || (early.tv_sec == time.tv_sec && early.tv_nsec >= time.tv_nsec));
    CHECK(pthread_create(&thread, NULL, opens, NULL) == 0 && wait_until(&condition, &far) == 0 && pthread_join(thread, NULL) == 0);
    is_open = 0;
    CHECK(pthread_condattr_init(&attributes) == 0 && pthread_condattr_setclock(&attributes, CLOCK_MONOTONIC) == 0);
    CHECK(pthread_cond_init(&monotonic, &attributes) == 0);
    time = from_now(CLOCK_MONOTONIC, 20);
    CHECK(wait_until(&monotonic, &time) == ETIMEDOUT && pthread_cond_destroy(&monotonic) == 0);
}

static void conditions(void)
{
    pthread_t threads[THREADS];
    is_open = waiting = woken = 0;
    CHECK(pthread_cond_signal(&condition) == 0 && pthread_cond_broadcast(&condition) == 0);
    for (int i = 0; i < THREADS; ++i)
        CHECK(pthread_create(&threads[i], NULL, waits, NULL) == 0);
    wait_for_waiting(THREADS);
    CHECK(woken == 0 && pthread_cond_signal(&condition) == 0);
    wait_a_while();
    CHECK(woken == 0);
    pthread_mutex_lock(&mutex);
    is_open = 1;
    CHECK(pthread_cond_broadcast(&condition) == 0 && woken == 0);
    pthread_mutex_unlock(&mutex);
    for (int i = 0; i < THREADS; ++i)
        CHECK(pthread_join(threads[i], NULL) == 0);
    CHECK(woken == THREADS);
    times_of_conditions();
}

/* ---- locks of readers and writers */

static pthread_rwlock_t both = PTHREAD_RWLOCK_INITIALIZER;
static int readers, most_readers, is_torn, pair[2];

static void *reads(void *argument)
{
    for (int i = 0; i < 50; ++i) {
        pthread_rwlock_rdlock(&both);
        int now = __atomic_add_fetch(&readers, 1, __ATOMIC_RELAXED);
        if (now > most_readers)
            most_readers = now;
        is_torn |= pair[0] != pair[1];
        sched_yield();
        __atomic_sub_fetch(&readers, 1, __ATOMIC_RELAXED);
        pthread_rwlock_unlock(&both);
    }
    return argument;
}

static void *writes(void *argument)
{
    for (int i = 0; i < 50; ++i) {
        pthread_rwlock_wrlock(&both);
        ++pair[0];
        sched_yield();
        ++pair[1];
        pthread_rwlock_unlock(&both);
    }
    return argument;
}

static void *tries_to_read(void *argument)
{
    int error = pthread_rwlock_tryrdlock(argument);
    if (error == 0)
        pthread_rwlock_unlock(argument);
    return (void *)(intptr_t)error;
}

static void *tries_to_write(void *argument)
{
    struct timespec time = from_now(CLOCK_REALTIME, 10);
    int error = pthread_rwlock_trywrlock(argument);
    if (error == EBUSY && pthread_rwlock_timedwrlock(argument, &time) != ETIMEDOUT)
        error = -1;
    if (error == 0)
        pthread_rwlock_unlock(argument);
    return (void *)(intptr_t)error;
}

static void reader_locks(void)
{
    pthread_t threads[THREADS];
    struct timespec time = from_now(CLOCK_REALTIME, 10);
    for (int i = 0; i < THREADS; ++i)
        CHECK(pthread_create(&threads[i], NULL, i % 4 == 3 ? writes : reads, NULL) == 0);
    for (int i = 0; i < THREADS; ++i)
        CHECK(pthread_join(threads[i], NULL) == 0);
    CHECK(!is_torn && pair[0] == 100 && pair[1] == 100 && most_readers > 0);
    CHECK(pthread_rwlock_rdlock(&both) == 0 && in_thread(tries_to_read, &both) == 0 && in_thread(tries_to_write, &both) == EBUSY);
    CHECK(in_thread(tries_to_read, &both) == 0 && pthread_rwlock_timedrdlock(&both, &time) == 0 && pthread_rwlock_unlock(&both) == 0);
    CHECK(pthread_rwlock_unlock(&both) == 0 && in_thread(tries_to_write, &both) == 0);
    CHECK(pthread_rwlock_wrlock(&both) == 0 && in_thread(tries_to_read, &both) == EBUSY && in_thread(tries_to_write, &both) == EBUSY);
    CHECK(pthread_rwlock_rdlock(&both) == EDEADLK && pthread_rwlock_wrlock(&both) == EDEADLK && pthread_rwlock_unlock(&both) == 0);
}

/* ---- barriers, semaphores, spinning */

static pthread_barrier_t barrier;
static pthread_spinlock_t spinning;
static int rounds[4], serials;

static void *meets(void *argument)
{
    for (int round = 0; round < 4; ++round) {
        pthread_spin_lock(&spinning);
        ++rounds[round];
        pthread_spin_unlock(&spinning);
        int answer = pthread_barrier_wait(&barrier);
        if (rounds[round] != THREADS)
            argument = &barrier;
        if (answer == PTHREAD_BARRIER_SERIAL_THREAD)
            __atomic_add_fetch(&serials, 1, __ATOMIC_RELAXED);
    }
    return argument;
}

static sem_t places;
static int inside, most_inside;

static void *takes_a_place(void *argument)
{
    for (int i = 0; i < 10; ++i) {
        sem_wait(&places);
        pthread_mutex_lock(&mutex);
        if (++inside > most_inside)
            most_inside = inside;
        pthread_mutex_unlock(&mutex);
        sched_yield();
        pthread_mutex_lock(&mutex);
        --inside;
        pthread_mutex_unlock(&mutex);
        sem_post(&places);
    }
    return argument;
}

static void barriers_and_semaphores(void)
{
    pthread_t threads[THREADS];
    void *value;
    int free_places;
    CHECK(pthread_barrier_init(&barrier, NULL, THREADS) == 0 && pthread_spin_init(&spinning, 0) == 0 && sem_init(&places, 0, 3) == 0);
    for (int i = 0; i < THREADS; ++i)
        CHECK(pthread_create(&threads[i], NULL, meets, NULL) == 0);
    for (int i = 0; i < THREADS; ++i)
        CHECK(pthread_join(threads[i], &value) == 0 && value == NULL);
    CHECK(serials == 4 && pthread_barrier_destroy(&barrier) == 0 && pthread_spin_destroy(&spinning) == 0);
    for (int i = 0; i < THREADS; ++i)
        CHECK(pthread_create(&threads[i], NULL, takes_a_place, NULL) == 0);
    for (int i = 0; i < THREADS; ++i)
        CHECK(pthread_join(threads[i], NULL) == 0);
    CHECK(most_inside > 0 && most_inside <= 3 && sem_getvalue(&places, &free_places) == 0 && free_places == 3);
    CHECK(sem_trywait(&places) == 0 && sem_trywait(&places) == 0 && sem_trywait(&places) == 0);
    struct timespec time = from_now(CLOCK_REALTIME, 10), wrong = {.tv_nsec = 1000000000L};
    FAILS(sem_trywait(&places), EAGAIN);
    FAILS(sem_timedwait(&places, &time), ETIMEDOUT);
    FAILS(sem_timedwait(&places, &wrong), EINVAL);
    CHECK(sem_post(&places) == 0 && sem_timedwait(&places, &time) == 0 && sem_destroy(&places) == 0);
}

/* ---- once, keys, cleaning up */

static pthread_once_t once = PTHREAD_ONCE_INIT;
static int done;

static void do_slowly(void)
{
    wait_a_while();
    ++done;
}

static void *does_once(void *argument)
{
    pthread_once(&once, do_slowly);
    return (void *)(intptr_t)(argument == NULL ? done : 0);
}

static pthread_key_t key, other_key;
static int ended_values, set_again;

static void end_value(void *value)
{
    ended_values += *(int *)value;
    if (set_again-- > 0)
        pthread_setspecific(key, value);
}

static void *has_values(void *argument)
{
    int is_empty = pthread_getspecific(key) == NULL && pthread_getspecific(other_key) == NULL;
    pthread_setspecific(key, argument);
    pthread_setspecific(other_key, argument);
    sched_yield();
    return (void *)(intptr_t)(is_empty && pthread_getspecific(key) == argument);
}

static int cleaned;

static void clean(void *argument)
{
    cleaned = cleaned * 10 + *(int *)argument;
}

static void *cleans(void *argument)
{
    int one = 1, two = 2, three = 3;
    pthread_cleanup_push(clean, &one);
    pthread_cleanup_push(clean, &two);
    pthread_cleanup_push(clean, &three);
    pthread_cleanup_pop(0);
    pthread_exit(argument);
    pthread_cleanup_pop(0);
    pthread_cleanup_pop(0);
    return NULL;
}

static void *is_cancelled(void *argument)
{
    int four = 4, before;
    pthread_cleanup_push(clean, &four);
    pthread_setcancelstate(PTHREAD_CANCEL_DISABLE, &before);
    sem_post(argument);
    for (int i = 0; i < 3; ++i)
        wait_a_while();
    pthread_testcancel();
    pthread_setcancelstate(before, NULL);
    pthread_testcancel();
    pthread_cleanup_pop(0);
    return NULL;
}

static void once_and_keys(void)
{
    pthread_t threads[THREADS];
    void *value;
    int three = 3, five = 5;
    sem_t begun;
    for (int i = 0; i < THREADS; ++i)
        CHECK(pthread_create(&threads[i], NULL, does_once, NULL) == 0);
    for (int i = 0; i < THREADS; ++i)
        CHECK(pthread_join(threads[i], &value) == 0 && value == (void *)1);
    CHECK(pthread_key_create(&key, end_value) == 0 && pthread_key_create(&other_key, NULL) == 0 && pthread_setspecific(key, &five) == 0);
    CHECK(in_thread(has_values, &three) == 1 && ended_values == 3 && pthread_getspecific(key) == &five);
    set_again = 1;
    CHECK(in_thread(has_values, &three) == 1 && ended_values == 9 && pthread_key_delete(key) == 0 && pthread_key_delete(other_key) == 0);
    CHECK(pthread_key_create(&key, NULL) == 0 && pthread_getspecific(key) == NULL && pthread_key_delete(key) == 0);
    in_thread(cleans, NULL);
    CHECK(cleaned == 21 && sem_init(&begun, 0, 0) == 0 && pthread_create(&threads[0], NULL, is_cancelled, &begun) == 0);
    CHECK(sem_wait(&begun) == 0 && pthread_cancel(threads[0]) == 0 && pthread_join(threads[0], &value) == 0 && value == PTHREAD_CANCELED);
    CHECK(cleaned == 214);
}

/* ---- C's threads */

static mtx_t lock;
static cnd_t changed;
static tss_t own;
static once_flag flag = ONCE_FLAG_INIT;
static int turn, called;

static void call(void)
{
    ++called;
}

static int takes_turns(void *argument)
{
    int which = *(int *)argument;
    call_once(&flag, call);
    tss_set(own, argument);
    for (int i = 0; i < 50; ++i) {
        mtx_lock(&lock);
        while (turn % 3 != which)
            cnd_wait(&changed, &lock);
        ++turn;
        cnd_broadcast(&changed);
        mtx_unlock(&lock);
    }
    if (which == 2)
        thrd_exit(-7);
    return tss_get(own) == argument ? 40 + which : 0;
}

static void threads_of_c(void)
{
    static int which[3] = {0, 1, 2};
    thrd_t threads[3];
    struct timespec time = from_now(CLOCK_REALTIME, 10);
    int code;
    CHECK(mtx_init(&lock, mtx_timed) == thrd_success && cnd_init(&changed) == thrd_success && tss_create(&own, NULL) == thrd_success);
    for (int i = 0; i < 3; ++i)
        CHECK(thrd_create(&threads[i], takes_turns, &which[i]) == thrd_success);
    for (int i = 0; i < 3; ++i)
        CHECK(thrd_join(threads[i], &code) == thrd_success && code == (i == 2 ? -7 : 40 + i));
    CHECK(turn == 150 && called == 1 && mtx_lock(&lock) == thrd_success && cnd_timedwait(&changed, &lock, &time) == thrd_timedout);
    CHECK(mtx_unlock(&lock) == thrd_success && mtx_timedlock(&lock, &time) == thrd_success && mtx_unlock(&lock) == thrd_success);
    CHECK(thrd_sleep(&(struct timespec){.tv_nsec = 1000}, NULL) == 0 && thrd_create(&threads[0], takes_turns, &which[0]) == thrd_success);
    CHECK(thrd_detach(threads[0]) == thrd_success);
}

/* ---- the library's own */

static void *allocates(void *argument)
{
    char *blocks[32];
    unsigned next = (unsigned)(uintptr_t)argument;
    for (int round = 0; round < 30; ++round) {
        for (int i = 0; i < 32; ++i) {
            next = next * 1103515245u + 12345;
            size_t size = 1 + next / 65536 % 3000;
            blocks[i] = malloc(size);
            memset(blocks[i], (int)(uintptr_t)argument, size);
            blocks[i][0] = (char)i;
        }
        sched_yield();
        for (int i = 0; i < 32; ++i) {
            if (blocks[i][0] != (char)i)
                return NULL;
            free(blocks[i]);
        }
    }
    return argument;
}

static FILE *shared;

static void *prints(void *argument)
{
    for (int i = 0; i < 100; ++i)
        fprintf(shared, "%s %d %s\n", (char *)argument, i, (char *)argument);
    flockfile(shared);
    for (int i = 0; i < 10; ++i) {
        fputs(argument, shared);
        sched_yield();
    }
    putc('\n', shared);
    funlockfile(shared);
    return NULL;
}

static void library(void)
{
    static char *names[] = {"first", "second", "third", "fourth"};
    pthread_t threads[THREADS];
    void *value;
    char *text = NULL, line[100], wanted[100];
    size_t size;
    int lines = 0, whole = 0;
    for (int i = 0; i < THREADS; ++i)
        CHECK(pthread_create(&threads[i], NULL, allocates, (void *)(uintptr_t)(i + 1)) == 0);
    for (int i = 0; i < THREADS; ++i)
        CHECK(pthread_join(threads[i], &value) == 0 && value != NULL);
    shared = open_memstream(&text, &size);
    for (int i = 0; i < 4; ++i)
        CHECK(pthread_create(&threads[i], NULL, prints, names[i]) == 0);
    for (int i = 0; i < 4; ++i)
        CHECK(pthread_join(threads[i], NULL) == 0);
    fclose(shared);
    FILE *reader = fmemopen(text, size, "r");
    while (fgets(line, sizeof line, reader) != NULL) {
        char name[20], *ten = wanted;
        int number;
        ++lines;
        if (sscanf(line, "%19s %d", name, &number) == 2) {
            snprintf(wanted, sizeof wanted, "%s %d %s\n", name, number, name);
        } else {
            for (int i = 0; i < 10; ++i)
                ten = stpcpy(ten, line[2] == 'r' && line[1] == 'i' ? "first" : *line == 's' ? "second" : *line == 't' ? "third" : "fourth");
            strcpy(ten, "\n");
        }
        whole += strcmp(line, wanted) == 0;
    }
    CHECK(lines == 404 && whole == 404);
    fclose(reader);
    free(text);
}

int main(void)
{
    beginning_and_end();
    detached();
    mutexes();
    conditions();
    reader_locks();
    barriers_and_semaphores();
    once_and_keys();
    threads_of_c();
    library();
    return finish();
}
