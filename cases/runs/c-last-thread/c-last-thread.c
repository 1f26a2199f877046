/* The first thread ends before the others: the process goes on, and ends with the last thread as if by exit(0). */
#include "check.h"

#include <pthread.h>
#include <stdlib.h>
#include <time.h>

static pthread_t first;
static int ended_values;

static void finish_all(void)
{
    CHECK(ended_values == 3);
    if (finish() != 0)
        _Exit(1);
}

static void end_value(void *value)
{
    ended_values += *(int *)value;
}

static void *waits_for_first(void *key)
{
    static int two = 2;
    void *value = NULL;
    nanosleep(&(struct timespec){.tv_nsec = 20000000}, NULL);
    CHECK(pthread_setspecific(*(pthread_key_t *)key, &two) == 0 && pthread_join(first, &value) == 0 && value == &first);
    printf("in a buffer, ");
    return NULL;
}

int main(void)
{
    static pthread_key_t key;
    static int one = 1;
    pthread_t thread;
    first = pthread_self();
    CHECK(atexit(finish_all) == 0 && pthread_key_create(&key, end_value) == 0 && pthread_setspecific(key, &one) == 0);
    CHECK(pthread_create(&thread, NULL, waits_for_first, &key) == 0 && pthread_detach(thread) == 0);
    pthread_exit(&first);
}
