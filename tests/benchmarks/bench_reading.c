/* FILE [PATH..]: prints the values at the paths of a binary property list, as the library reads them that this is
   compiled with, and then the seconds that opening and reading took, and the peak of this process's memory in KiB. */
#include "bench_reading.h"

#include <stdio.h>
#include <time.h>

static double now(void)
{
    struct timespec time;

    clock_gettime(CLOCK_MONOTONIC, &time);
    return time.tv_sec + time.tv_nsec / 1e9;
}

/* A child's ru_maxrss counts the memory of the process that started it; this does not. */
static long peak(void)
{
    char line[256];
    long kib = 0;
    FILE *status = fopen("/proc/self/status", "r");

    while (status && fgets(line, sizeof line, status))
        sscanf(line, "VmHWM: %ld", &kib);
    return kib;
}

int main(int argc, char **argv)
{
    double begun = now();

    if (argc < 2 || read_values(argv[1], argv + 2, argc - 2) != 0)
        return 1;
    printf("%.6f %ld\n", now() - begun, peak());
    return 0;
}
