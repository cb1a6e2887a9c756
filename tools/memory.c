/* Refuses one request for memory of the program that is started with it, the one of the number REFUSED, from 1. An octet on the
   descriptor REFUSED_FD then says that there was one. tools/memory builds it and starts programs with it. A program that is linked
   by `rt` asks by malloc and realloc alone; tools/memory looks whether that is so. */
#include <stdlib.h>
#include <unistd.h>

void *__libc_malloc(size_t size);
void *__libc_realloc(void *old, size_t size);

static unsigned long requests, refused;
static int refused_fd;

__attribute__((constructor)) static void begin(void)
{
    const char *number = getenv("REFUSED"), *descriptor = getenv("REFUSED_FD");
    if (number && descriptor) {
        refused_fd = atoi(descriptor);
        refused = strtoul(number, NULL, 10);
        requests = 0;
    }
}

static int is_refused(void)
{
    requests += 1;
    if (refused == 0 || requests != refused)
        return 0;
    if (write(refused_fd, "", 1) != 1)
        _exit(99);
    return 1;
}

void *malloc(size_t size)
{
    return is_refused() ? NULL : __libc_malloc(size);
}

void *realloc(void *old, size_t size)
{
    return is_refused() ? NULL : __libc_realloc(old, size);
}
