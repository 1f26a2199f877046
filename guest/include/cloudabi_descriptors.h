/* File descriptors of C and descriptors of the sandbox, for programs that use both. */
#ifndef CLOUDABI_DESCRIPTORS_H
#define CLOUDABI_DESCRIPTORS_H

#include <stdint.h>

/* A file descriptor for a descriptor of the sandbox, which is closed with it; -1 with errno EMFILE where there is none left. */
int cloudabi_take_descriptor(uint32_t fd);

/* The sandbox's descriptor of a file descriptor, or UINT32_MAX where it is closed. */
uint32_t cloudabi_descriptor(int fd);

#endif
