/* Calls itself in a thread until its stack is used up: behind it nothing can be touched. */
#include <pthread.h>
#include <stdio.h>

static int depth(volatile char *above)
{
    volatile char room[1000];
    room[0] = above[0];
    return room[0] == 0 ? 0 : depth(room) + room[0];
}

static void *go_down(void *argument)
{
    volatile char first = 1;
    printf("goes down\n");
    printf("%d\n", depth(&first));
    return argument;
}

int main(void)
{
    pthread_t threads[2];
    for (int i = 0; i < 2; ++i) {
        pthread_create(&threads[i], NULL, go_down, NULL);
        pthread_join(threads[i], NULL);
    }
}
