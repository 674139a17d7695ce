/* Before a program: fork fails five times, as where there are too many processes, and works then. */
#define _GNU_SOURCE
#include <dlfcn.h>
#include <errno.h>
#include <unistd.h>

pid_t fork(void)
{
    static int calls;
    if (calls++ < 5) {
        errno = EAGAIN;
        return -1;
    }
    union {
        void *found;
        pid_t (*call)(void);
    } next = {dlsym(RTLD_NEXT, "fork")};
    return next.call();
}
