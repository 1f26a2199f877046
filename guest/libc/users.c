/* Users and groups: there is one, and nobody knows a name. */
#define _GNU_SOURCE
#include <errno.h>
#include <grp.h>
#include <pwd.h>
#include <stddef.h>
#include <sys/types.h>
#include <unistd.h>

#define USER 1000

/* Defines a function that gives this. */
#define GIVES(type, name, value)                                                                                                   \
    type name(void)                                                                                                                \
    {                                                                                                                              \
        return value;                                                                                                              \
    }

GIVES(uid_t, getuid, USER)
GIVES(uid_t, geteuid, USER)
GIVES(gid_t, getgid, USER)
GIVES(gid_t, getegid, USER)
GIVES(struct passwd *, getpwent, NULL)
GIVES(struct group *, getgrent, NULL)
GIVES(char *, getlogin, NULL)

void setpwent(void)
{
}

void endpwent(void)
{
}

void setgrent(void)
{
}

void endgrent(void)
{
}

static int only_own(unsigned id)
{
    if (id == USER)
        return 0;
    errno = EPERM;
    return -1;
}

int setuid(uid_t user)
{
    return only_own(user);
}

int seteuid(uid_t user)
{
    return only_own(user);
}

int setreuid(uid_t user, uid_t effective)
{
    (void)effective;
    return only_own(user);
}

int setgid(gid_t group)
{
    return only_own(group);
}

int setegid(gid_t group)
{
    return only_own(group);
}

int setregid(gid_t group, gid_t effective)
{
    (void)effective;
    return only_own(group);
}

int getgroups(int size, gid_t groups[])
{
    if (size > 0)
        groups[0] = USER;
    return 1;
}

struct passwd *getpwuid(uid_t user)
{
    (void)user;
    return NULL;
}

struct passwd *getpwnam(const char *name)
{
    (void)name;
    return NULL;
}

int getpwuid_r(uid_t user, struct passwd *entry, char *room, size_t size, struct passwd **found)
{
    (void)user, (void)entry, (void)room, (void)size;
    *found = NULL;
    return 0;
}

int getpwnam_r(const char *name, struct passwd *entry, char *room, size_t size, struct passwd **found)
{
    (void)name, (void)entry, (void)room, (void)size;
    *found = NULL;
    return 0;
}

struct group *getgrgid(gid_t group)
{
    (void)group;
    return NULL;
}

struct group *getgrnam(const char *name)
{
    (void)name;
    return NULL;
}

int getgrgid_r(gid_t group, struct group *entry, char *room, size_t size, struct group **found)
{
    (void)group, (void)entry, (void)room, (void)size;
    *found = NULL;
    return 0;
}

int getgrnam_r(const char *name, struct group *entry, char *room, size_t size, struct group **found)
{
    (void)name, (void)entry, (void)room, (void)size;
    *found = NULL;
    return 0;
}

int getlogin_r(char *name, size_t size)
{
    (void)name, (void)size;
    return ENXIO;
}
