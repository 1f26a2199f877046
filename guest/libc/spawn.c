/* spawn.h: a process can't be made, so what is said of one is taken and comes to nothing. */
#define _GNU_SOURCE
#include <errno.h>
#include <spawn.h>
#include <stddef.h>

int posix_spawn(pid_t *restrict process, const char *restrict path, const posix_spawn_file_actions_t *actions,
                const posix_spawnattr_t *restrict attributes, char *const words[restrict], char *const variables[restrict])
{
    (void)process, (void)path, (void)actions, (void)attributes, (void)words, (void)variables;
    return ENOSYS;
}

int posix_spawnp(pid_t *restrict process, const char *restrict name, const posix_spawn_file_actions_t *actions,
                 const posix_spawnattr_t *restrict attributes, char *const words[restrict], char *const variables[restrict])
{
    return posix_spawn(process, name, actions, attributes, words, variables);
}

int posix_spawn_file_actions_init(posix_spawn_file_actions_t *actions)
{
    *actions = NULL;
    return 0;
}

int posix_spawn_file_actions_destroy(posix_spawn_file_actions_t *actions)
{
    (void)actions;
    return 0;
}

int posix_spawn_file_actions_addopen(posix_spawn_file_actions_t *restrict actions, int fd, const char *restrict path, int flags, mode_t mode)
{
    (void)actions, (void)path, (void)flags, (void)mode;
    return fd < 0 ? EBADF : 0;
}

int posix_spawn_file_actions_adddup2(posix_spawn_file_actions_t *actions, int fd, int to)
{
    (void)actions;
    return fd < 0 || to < 0 ? EBADF : 0;
}

int posix_spawn_file_actions_addclose(posix_spawn_file_actions_t *actions, int fd)
{
    (void)actions;
    return fd < 0 ? EBADF : 0;
}

int posix_spawnattr_init(posix_spawnattr_t *attributes)
{
    *attributes = NULL;
    return 0;
}

int posix_spawnattr_destroy(posix_spawnattr_t *attributes)
{
    (void)attributes;
    return 0;
}

int posix_spawnattr_setflags(posix_spawnattr_t *attributes, short flags)
{
    (void)attributes, (void)flags;
    return 0;
}

int posix_spawnattr_setpgroup(posix_spawnattr_t *attributes, pid_t group)
{
    (void)attributes, (void)group;
    return 0;
}

int posix_spawnattr_setsigdefault(posix_spawnattr_t *restrict attributes, const sigset_t *restrict set)
{
    (void)attributes, (void)set;
    return 0;
}

int posix_spawnattr_setsigmask(posix_spawnattr_t *restrict attributes, const sigset_t *restrict set)
{
    (void)attributes, (void)set;
    return 0;
}
