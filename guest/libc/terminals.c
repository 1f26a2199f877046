/* Terminals, of which there are none. */
#define _GNU_SOURCE
#include "system.h"

#include <errno.h>
#include <stdio.h>
#include <sys/ioctl.h>
#include <termios.h>
#include <unistd.h>

static int no_terminal(int fd)
{
    errno = descriptor(fd) == NO_DESCRIPTOR ? EBADF : ENOTTY;
    return -1;
}

int ioctl(int fd, unsigned long request, ...)
{
    (void)request;
    return no_terminal(fd);
}

int tcgetattr(int fd, struct termios *settings)
{
    (void)settings;
    return no_terminal(fd);
}

int tcsetattr(int fd, int when, const struct termios *settings)
{
    (void)when, (void)settings;
    return no_terminal(fd);
}

int tcflush(int fd, int which)
{
    (void)which;
    return no_terminal(fd);
}

int tcdrain(int fd)
{
    return no_terminal(fd);
}

speed_t cfgetispeed(const struct termios *settings)
{
    return settings->c_ispeed;
}

speed_t cfgetospeed(const struct termios *settings)
{
    return settings->c_ospeed;
}

pid_t tcgetpgrp(int fd)
{
    return no_terminal(fd);
}

int tcsetpgrp(int fd, pid_t group)
{
    (void)group;
    return no_terminal(fd);
}

char *ctermid(char *name)
{
    static char nothing[1];
    if (name == NULL)
        return nothing;
    *name = '\0';
    return name;
}
