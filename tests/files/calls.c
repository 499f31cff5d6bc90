/* Preloaded into a program: writes the name of each call that brings a file to the disk, into its place or out of the way to the file CALLS,
   in their order. Where REFUSED names one, that call fails. */
#define _GNU_SOURCE
#include <dlfcn.h>
#include <errno.h>
#include <fcntl.h>
#include <stdlib.h>
#include <string.h>
#include <unistd.h>

static int is_refused(const char *name)
{
    const char *refused = getenv("REFUSED");
    int calls = open(getenv("CALLS"), O_WRONLY | O_CREAT | O_APPEND, 0600);
    if (calls < 0 || write(calls, name, strlen(name)) < 0 || write(calls, "\n", 1) < 0)
        abort();
    close(calls);
    errno = EIO;
    return refused && !strcmp(refused, name);
}

int fsync(int file)
{
    int (*next)(int) = dlsym(RTLD_NEXT, "fsync");
    return is_refused("fsync") ? -1 : next(file);
}

int rename(const char *from, const char *to)
{
    int (*next)(const char *, const char *) = dlsym(RTLD_NEXT, "rename");
    return is_refused("rename") ? -1 : next(from, to);
}

int unlink(const char *name)
{
    int (*next)(const char *) = dlsym(RTLD_NEXT, "unlink");
    return is_refused("unlink") ? -1 : next(name);
}
