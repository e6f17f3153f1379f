/* Stands before the C library's allocator and refuses one growth: the one whose number, from 1, is in REFUSED_GROWTH.
   If it does, it writes a zero byte to the file descriptor in REFUSED_GROWTH_TOLD. With the number -1 it refuses none, and
   writes a zero byte for each. A program may ask it how many blocks are taken, and may set the number itself, counted from
   then on. */
#include <errno.h>
#include <stddef.h>
#include <stdlib.h>
#include <unistd.h>

extern void *__libc_malloc(size_t size);
extern void *__libc_calloc(size_t count, size_t size);
extern void *__libc_realloc(void *block, size_t size);
extern void __libc_free(void *block);

static long left = 0;
static int told = -1;
static long taken = 0;

__attribute__((constructor)) static void start(void)
{
    const char *number = getenv("REFUSED_GROWTH");
    const char *descriptor = getenv("REFUSED_GROWTH_TOLD");
    left = number ? atol(number) : 0;
    told = descriptor ? atoi(descriptor) : -1;
}

static void tell(void)
{
    if (told >= 0 && write(told, "", 1) != 1)
        _exit(99);
}

static int refuses(void)
{
    if (left < 0)
        tell();
    if (left <= 0 || --left != 0)
        return 0;
    tell();
    errno = ENOMEM;
    return 1;
}

static void *counted(void *block)
{
    if (block)
        taken++;
    return block;
}

long blocks_taken(void) { return taken; }
void refuse_growth(long number) { left = number; }
/* How many growths come before the one that is refused, it included: 0 where it was refused. */
long growths_left(void) { return left; }
void *malloc(size_t size) { return refuses() ? NULL : counted(__libc_malloc(size)); }
void *calloc(size_t count, size_t size) { return refuses() ? NULL : counted(__libc_calloc(count, size)); }

void *realloc(void *block, size_t size)
{
    void *moved = refuses() ? NULL : __libc_realloc(block, size);

    return block ? moved : counted(moved);
}

void free(void *block)
{
    if (block)
        taken--;
    __libc_free(block);
}
