/* A `read` for tools/desk-inputs, put before the C library's by LD_PRELOAD. It brings at most five bytes of standard input in one call,
   and fails by what FAILING_READ says: `error` is an input error at the second call, `interrupted` a signal at every other call, and
   `always` a signal at each call. */
#define _GNU_SOURCE
#include <dlfcn.h>
#include <errno.h>
#include <stdlib.h>
#include <string.h>
#include <unistd.h>

enum { PIECE = 5 };

static int error_at(const char *how, int call)
{
    if (strcmp(how, "error") == 0 && call == 2)
        return EIO;
    if (strcmp(how, "interrupted") == 0 && call % 2 == 1)
        return EINTR;
    if (strcmp(how, "always") == 0)
        return EINTR;
    return 0;
}

ssize_t read(int fd, void *buffer, size_t count)
{
    static ssize_t (*real)(int, void *, size_t);
    static int calls;
    const char *how = getenv("FAILING_READ");
    if (real == NULL)
        *(void **)&real = dlsym(RTLD_NEXT, "read");
    if (fd != STDIN_FILENO || how == NULL)
        return real(fd, buffer, count);
    calls++;
    errno = error_at(how, calls);
    if (errno != 0)
        return -1;
    return real(fd, buffer, count < PIECE ? count : PIECE);
}
