/* What a process knows and has: words, variables, signals, ends, users, the machine, locks. */
#include "check.h"

#include <err.h>
#include <getopt.h>
#include <grp.h>
#include <pthread.h>
#include <pwd.h>
#include <search.h>
#include <sched.h>
#include <semaphore.h>
#include <setjmp.h>
#include <signal.h>
#include <spawn.h>
#include <stdlib.h>
#include <sys/resource.h>
#include <sys/stat.h>
#include <sys/utsname.h>
#include <sys/wait.h>
#include <time.h>
#include <unistd.h>

static int caught, last_signal;

static void handle(int signal)
{
    ++caught;
    last_signal = signal;
}

static void tell(int signal, siginfo_t *information, void *context)
{
    (void)context;
    caught += information->si_signo == signal ? 10 : 100;
}

static void signals(void)
{
    struct sigaction action = {.sa_handler = handle}, before;
    sigset_t set, old;
    CHECK(signal(SIGINT, handle) == SIG_DFL && raise(SIGINT) == 0 && caught == 1 && last_signal == SIGINT);
    CHECK(sigaction(SIGTERM, &action, &before) == 0 && before.sa_handler == SIG_DFL && kill(getpid(), SIGTERM) == 0 && caught == 2);
    action.sa_sigaction = tell;
    action.sa_flags = SA_SIGINFO;
    CHECK(sigaction(SIGTERM, &action, NULL) == 0 && raise(SIGTERM) == 0 && caught == 12);
    sigemptyset(&set);
    CHECK(sigaddset(&set, SIGINT) == 0 && sigismember(&set, SIGINT) == 1 && sigprocmask(SIG_BLOCK, &set, &old) == 0);
    CHECK(raise(SIGINT) == 0 && caught == 12 && sigpending(&set) == 0 && sigismember(&set, SIGINT) == 1);
    CHECK(sigprocmask(SIG_SETMASK, &old, NULL) == 0 && caught == 13);
    CHECK(signal(SIGINT, SIG_IGN) == handle && raise(SIGINT) == 0 && caught == 13 && kill(getpid(), 0) == 0);
    CHECK(signal(999, handle) == SIG_ERR && errno == EINVAL);
}

static jmp_buf place;

static void jumps(void)
{
    static volatile int turns;
    int value = setjmp(place);
    if (value < 3) {
        ++turns;
        longjmp(place, value + 1);
    }
    CHECK(turns == 3 && value == 3);
}

static sigjmp_buf blocked_place;

static void jumps_with_signals(void)
{
    static volatile int turns;
    sigset_t set, now;
    sigemptyset(&set);
    sigaddset(&set, SIGINT);
    if (sigsetjmp(blocked_place, 1) == 0) {
        sigprocmask(SIG_BLOCK, &set, NULL);
        ++turns;
        siglongjmp(blocked_place, 1);
    }
    CHECK(turns == 1 && sigprocmask(SIG_BLOCK, NULL, &now) == 0 && !sigismember(&now, SIGINT));
}

static int compare(const void *left, const void *right)
{
    return *(const int *)left - *(const int *)right;
}

static void searches(void)
{
    int numbers[5] = {3, 1, 4}, key = 4, other = 9;
    struct item {
        struct item *next, *previous;
    } first = {NULL, NULL}, second;
    size_t count = 3;
    CHECK(lfind(&key, numbers, &count, sizeof key, compare) == numbers + 2 && lfind(&other, numbers, &count, sizeof key, compare) == NULL);
    CHECK(lsearch(&other, numbers, &count, sizeof key, compare) == numbers + 3 && count == 4 && numbers[3] == 9);
    insque(&second, &first);
    CHECK(first.next == &second && second.previous == &first && second.next == NULL);
    remque(&second);
    CHECK(first.next == NULL);
    qsort(numbers, 4, sizeof *numbers, compare);
    CHECK(numbers[0] == 1 && numbers[3] == 9 && bsearch(&key, numbers, 4, sizeof key, compare) == numbers + 2);
}

static void variables(void)
{
    CHECK(setenv("NAME", "value", 1) == 0 && strcmp(getenv("NAME"), "value") == 0 && setenv("NAME", "other", 0) == 0);
    CHECK(strcmp(getenv("NAME"), "value") == 0 && unsetenv("NAME") == 0 && getenv("NAME") == NULL && putenv("A=b") == 0);
    CHECK(strcmp(getenv("A"), "b") == 0);
}

static void options(void)
{
    char *words[] = {"program", "-a", "-bvalue", "--long=5", "rest", NULL};
    static const struct option names[] = {{"long", required_argument, NULL, 'l'}, {NULL, 0, NULL, 0}};
    CHECK(getopt_long(5, words, "ab:", names, NULL) == 'a' && getopt_long(5, words, "ab:", names, NULL) == 'b' && strcmp(optarg, "value") == 0);
    CHECK(getopt_long(5, words, "ab:", names, NULL) == 'l' && strcmp(optarg, "5") == 0 && getopt_long(5, words, "ab:", names, NULL) == -1);
    CHECK(optind == 4 && strcmp(program_invocation_short_name, "") != 0);
}

static void machine(void)
{
    struct utsname names;
    struct rlimit limit;
    CHECK(uname(&names) == 0 && names.machine[0] != '\0' && sysconf(_SC_PAGESIZE) == 4096 && getpagesize() == 4096);
    CHECK(sysconf(_SC_NPROCESSORS_ONLN) >= 1 && sysconf(_SC_OPEN_MAX) >= 20 && sysconf(_SC_CLK_TCK) == 100);
    errno = 0;
    CHECK(sysconf(99999) == -1 && errno == EINVAL && pathconf(".", _PC_NAME_MAX) == 255);
    CHECK(getrlimit(RLIMIT_NOFILE, &limit) == 0 && limit.rlim_cur >= 20);
    CHECK(getuid() == geteuid() && getgid() == getegid() && getpid() > 0);
    CHECK(getpwnam("no such user") == NULL && getgrnam("no such group") == NULL);
    umask(027);
    CHECK(umask(022) == 027);
}

static pthread_once_t once = PTHREAD_ONCE_INIT;
static int done;

static void do_once(void)
{
    ++done;
}

static void locks(void)
{
    pthread_mutex_t mutex = PTHREAD_MUTEX_INITIALIZER, again;
    pthread_mutexattr_t attributes;
    pthread_rwlock_t both = PTHREAD_RWLOCK_INITIALIZER;
    pthread_key_t key;
    sem_t semaphore;
    int value;
    CHECK(sem_init(&semaphore, 0, 1) == 0 && sem_wait(&semaphore) == 0 && sem_trywait(&semaphore) == -1 && errno == EAGAIN);
    CHECK(sem_post(&semaphore) == 0 && sem_getvalue(&semaphore, &value) == 0 && value == 1 && sem_destroy(&semaphore) == 0);
    CHECK(pthread_mutex_lock(&mutex) == 0 && pthread_mutex_trylock(&mutex) == EBUSY && pthread_mutex_unlock(&mutex) == 0);
    CHECK(pthread_mutexattr_init(&attributes) == 0 && pthread_mutexattr_settype(&attributes, PTHREAD_MUTEX_RECURSIVE) == 0);
    CHECK(pthread_mutex_init(&again, &attributes) == 0 && pthread_mutex_lock(&again) == 0 && pthread_mutex_lock(&again) == 0);
    CHECK(pthread_mutex_unlock(&again) == 0 && pthread_mutex_unlock(&again) == 0 && pthread_mutex_destroy(&again) == 0);
    CHECK(pthread_once(&once, do_once) == 0 && pthread_once(&once, do_once) == 0 && done == 1);
    CHECK(pthread_key_create(&key, NULL) == 0 && pthread_getspecific(key) == NULL && pthread_setspecific(key, &done) == 0);
    CHECK(pthread_getspecific(key) == &done && pthread_key_delete(key) == 0 && pthread_equal(pthread_self(), pthread_self()));
    CHECK(pthread_rwlock_rdlock(&both) == 0 && pthread_rwlock_trywrlock(&both) == EBUSY && pthread_rwlock_unlock(&both) == 0);
    CHECK(pthread_rwlock_wrlock(&both) == 0 && pthread_rwlock_tryrdlock(&both) == EBUSY && pthread_rwlock_unlock(&both) == 0);
}

static int cleaned;

static void clean(void *argument)
{
    cleaned += *(int *)argument;
}

static void kinds_of_locks(void)
{
    pthread_spinlock_t spinning;
    pthread_barrier_t barrier;
    pthread_condattr_t of_condition;
    pthread_rwlockattr_t of_lock;
    pthread_attr_t of_thread;
    int state, two = 2;
    CHECK(pthread_spin_init(&spinning, PTHREAD_PROCESS_PRIVATE) == 0 && pthread_spin_lock(&spinning) == 0);
    CHECK(pthread_spin_trylock(&spinning) == EBUSY && pthread_spin_unlock(&spinning) == 0 && pthread_spin_destroy(&spinning) == 0);
    CHECK(pthread_barrier_init(&barrier, NULL, 0) == EINVAL && pthread_barrier_init(&barrier, NULL, 1) == 0);
    CHECK(pthread_barrier_wait(&barrier) == PTHREAD_BARRIER_SERIAL_THREAD && pthread_barrier_destroy(&barrier) == 0);
    CHECK(pthread_condattr_init(&of_condition) == 0 && pthread_condattr_setclock(&of_condition, CLOCK_MONOTONIC) == 0);
    CHECK(pthread_condattr_destroy(&of_condition) == 0 && pthread_rwlockattr_init(&of_lock) == 0 && pthread_rwlockattr_destroy(&of_lock) == 0);
    CHECK(pthread_attr_init(&of_thread) == 0 && pthread_attr_setdetachstate(&of_thread, PTHREAD_CREATE_DETACHED) == 0);
    CHECK(pthread_attr_getdetachstate(&of_thread, &state) == 0 && state == PTHREAD_CREATE_DETACHED && pthread_attr_destroy(&of_thread) == 0);
    pthread_cleanup_push(clean, &two);
    CHECK(cleaned == 0 && pthread_setcanceltype(PTHREAD_CANCEL_DEFERRED, &state) == 0 && state == PTHREAD_CANCEL_DEFERRED);
    pthread_cleanup_pop(1);
    pthread_testcancel();
    CHECK(cleaned == 2 && pthread_kill(pthread_self(), 0) == 0);
}

static void spawning(void)
{
    posix_spawn_file_actions_t actions;
    posix_spawnattr_t attributes;
    CHECK(posix_spawn_file_actions_init(&actions) == 0 && posix_spawn_file_actions_addclose(&actions, 0) == 0);
    CHECK(posix_spawn_file_actions_adddup2(&actions, 1, 2) == 0 && posix_spawn_file_actions_adddup2(&actions, -1, 2) == EBADF);
    CHECK(posix_spawn_file_actions_destroy(&actions) == 0 && posix_spawnattr_init(&attributes) == 0 && posix_spawnattr_destroy(&attributes) == 0);
    CHECK(sched_yield() == 0 && sched_get_priority_max(SCHED_OTHER) >= sched_get_priority_min(SCHED_OTHER));
}

static void dates(void)
{
    time_t moment = 1000000000;
    struct tm *parts = gmtime(&moment), given = {.tm_year = 101, .tm_mon = 8, .tm_mday = 9, .tm_hour = 1, .tm_min = 46, .tm_sec = 40};
    char text[64];
    CHECK(parts->tm_year == 101 && parts->tm_mon == 8 && parts->tm_mday == 9 && parts->tm_wday == 0 && mktime(&given) == moment);
    CHECK(strftime(text, sizeof text, "%Y-%m-%d %H:%M:%S", parts) == 19 && strcmp(text, "2001-09-09 01:46:40") == 0);
    CHECK(difftime(moment + 5, moment) == 5);
}

static void at_end(void)
{
    finish();
}

int main(int argc, char **argv)
{
    CHECK(argc >= 1 && argv[argc] == NULL);
    signals();
    jumps();
    jumps_with_signals();
    searches();
    variables();
    options();
    machine();
    locks();
    kinds_of_locks();
    spawning();
    dates();
    warnx("a %s", "warning");
    errno = ENOENT;
    warn("absent");
    CHECK(atexit(at_end) == 0);
    exit(0);
}
