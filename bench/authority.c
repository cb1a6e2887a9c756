/* Counts the blocks of memory that the program which is started with it asks for, and says how many on the descriptor of the
   environment's COUNT_FD as it ends. bench/authority builds it. A program that is linked by `rt` asks by malloc and realloc alone. */
#include <stdio.h>
#include <stdlib.h>
#include <unistd.h>

void *__libc_malloc(size_t size);
void *__libc_realloc(void *old, size_t size);

static unsigned long blocks;

void *malloc(size_t size)
{
    blocks += 1;
    return __libc_malloc(size);
}

void *realloc(void *old, size_t size)
{
    blocks += 1;
    return __libc_realloc(old, size);
}

__attribute__((destructor)) static void end(void)
{
    const char *descriptor = getenv("COUNT_FD");
    char text[32];
    int size = snprintf(text, sizeof text, "%lu", blocks);
    if (descriptor && write(atoi(descriptor), text, size) != size)
        _exit(99);
}
