/* Libraries at run time, which a static program doesn't have. */
#include <dlfcn.h>
#include <stddef.h>

void *dlopen(const char *path, int mode)
{
    (void)path, (void)mode;
    return NULL;
}

void *dlsym(void *library, const char *name)
{
    (void)library, (void)name;
    return NULL;
}

int dlclose(void *library)
{
    (void)library;
    return -1;
}

char *dlerror(void)
{
    return "programs of the sandbox are static";
}
