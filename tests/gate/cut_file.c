/* Stands before the C library's read, and cuts a file to one byte before a read: CUT_FILE has the file's name, and
   CUT_BEFORE the number of the read, from 1. */
#include <stdlib.h>
#include <sys/syscall.h>
#include <unistd.h>

static long left = 0;

__attribute__((constructor)) static void start(void)
{
    const char *number = getenv("CUT_BEFORE");

    left = number ? atol(number) : 0;
}

ssize_t read(int file, void *into, size_t count)
{
    if (left > 0 && --left == 0 && truncate(getenv("CUT_FILE"), 1) != 0)
        _exit(99);
    return syscall(SYS_read, file, into, count);
}
