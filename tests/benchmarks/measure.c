/* measure SECONDS COMMAND [WORD..]: runs the command, with its output to /dev/null, for at most SECONDS of processor
   time and with at most 4 GiB of memory. Prints the seconds by the clock, those of processor time, the peak of memory
   in KiB and the exit status.
   A child's ru_maxrss counts the memory of the process that started it, and this one is small. */
#include <fcntl.h>
#include <stdio.h>
#include <stdlib.h>
#include <sys/resource.h>
#include <sys/time.h>
#include <sys/wait.h>
#include <time.h>
#include <unistd.h>

static double now(void)
{
    struct timespec time;

    clock_gettime(CLOCK_MONOTONIC, &time);
    return time.tv_sec + time.tv_nsec / 1e9;
}

static double seconds(struct timeval time)
{
    return time.tv_sec + time.tv_usec / 1e6;
}

int main(int argc, char **argv)
{
    int status, null = open("/dev/null", O_WRONLY);
    double begun = now();
    struct rusage usage;
    pid_t child;

    if (argc < 3 || null < 0)
        return 2;
    child = fork();
    if (child == 0) {
        rlim_t most = (rlim_t)atoi(argv[1]), room = (rlim_t)4 << 30;
        struct rlimit time = {most, most}, memory = {room, room};

        setrlimit(RLIMIT_CPU, &time);
        setrlimit(RLIMIT_AS, &memory);
        dup2(null, 1);
        dup2(null, 2);
        execvp(argv[2], argv + 2);
        _exit(127);
    }
    if (child < 0 || wait4(child, &status, 0, &usage) != child)
        return 2;
    printf("%.6f %.6f %ld %d\n", now() - begun, seconds(usage.ru_utime) + seconds(usage.ru_stime), usage.ru_maxrss,
           WIFEXITED(status) ? WEXITSTATUS(status) : 128 + WTERMSIG(status));
    return 0;
}
