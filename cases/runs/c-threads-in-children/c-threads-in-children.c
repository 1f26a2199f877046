/* Children side by side, each with threads that hand a turn round, and wait for each other's ends. */
#include "check.h"

#include <pthread.h>
#include <stdint.h>
#include <stdlib.h>
#include <sys/wait.h>
#include <unistd.h>

#define CHILDREN 6
#define THREADS 5
#define ROUNDS 40

static pthread_mutex_t mutex = PTHREAD_MUTEX_INITIALIZER;
static pthread_cond_t changed[THREADS];
static int turn, sum;

static void *takes_turns(void *argument)
{
    int own = (int)(intptr_t)argument;
    for (int i = 0; i < ROUNDS; ++i) {
        pthread_mutex_lock(&mutex);
        while (turn % THREADS != own)
            pthread_cond_wait(&changed[own], &mutex);
        sum += own;
        ++turn;
        pthread_cond_signal(&changed[turn % THREADS]);
        pthread_mutex_unlock(&mutex);
    }
    return argument;
}

static int run_threads(void)
{
    pthread_t threads[THREADS];
    for (int i = 0; i < THREADS; ++i) {
        if (pthread_create(&threads[i], NULL, takes_turns, (void *)(intptr_t)i) != 0)
            return 1;
    }
    for (int i = 0; i < THREADS; ++i) {
        if (pthread_join(threads[i], NULL) != 0)
            return 2;
    }
    return turn == THREADS * ROUNDS && sum == ROUNDS * (THREADS * (THREADS - 1) / 2) ? 0 : 3;
}

int main(void)
{
    pid_t children[CHILDREN];
    int status;
    for (int i = 0; i < THREADS; ++i)
        CHECK(pthread_cond_init(&changed[i], NULL) == 0);
    for (int i = 0; i < CHILDREN; ++i) {
        fflush(stdout);
        children[i] = fork();
        CHECK(children[i] >= 0);
        if (children[i] == 0)
            _exit(10 * i + run_threads());
    }
    CHECK(run_threads() == 0);
    for (int i = 0; i < CHILDREN; ++i)
        CHECK(waitpid(children[i], &status, 0) == children[i] && WIFEXITED(status) && WEXITSTATUS(status) == 10 * i);
    return finish();
}
