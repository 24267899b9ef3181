/* Stands before the C library's heap and refuses one request, the one whose number is in REFUSED. At the end it says so, if
   there were so many. */
#include <stdlib.h>
#include <unistd.h>

extern void *__libc_malloc(size_t size);
extern void *__libc_realloc(void *block, size_t size);

static long requests;
static long refused;

__attribute__((constructor)) static void begin(void)
{
    const char *number = getenv("REFUSED");
    refused = number ? atol(number) : 0;
}

void *malloc(size_t size)
{
    return ++requests == refused ? NULL : __libc_malloc(size);
}

void *realloc(void *block, size_t size)
{
    return ++requests == refused ? NULL : __libc_realloc(block, size);
}

__attribute__((destructor)) static void end(void)
{
    static const char told[] = "refused\n";
    if (0 < refused && refused <= requests && write(2, told, sizeof told - 1) < 0)
        _exit(3);
}
