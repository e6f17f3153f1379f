/* Maps a binary property list, lints it and reads values by libbplist. */
#include "bench_reading.h"

#include <bplist.h>
#include <fcntl.h>
#include <inttypes.h>
#include <stdio.h>
#include <string.h>
#include <sys/mman.h>
#include <sys/stat.h>
#include <unistd.h>

static int print_value(bplist_handle *handle, const uint8_t *file, size_t length, const char *path)
{
    bplist_found found;
    bplist_body body;
    bplist_integer number;

    if (bplist_find(handle, file, length, path, strlen(path), &found) != BPLIST_OK
        || bplist_face(handle, file, length, found.object, &body) != BPLIST_OK)
        return 1;
    if (body.kind == BPLIST_ASCII)
        printf("%.*s\n", (int)body.length, (const char *)file + body.place);
    else if (bplist_int(handle, file, length, found.object, &number) == BPLIST_OK)
        printf("%" PRIu64 "\n", number.low);
    return 0;
}

int read_values(const char *name, char **paths, int count)
{
    int descriptor = open(name, O_RDONLY);
    struct stat info;
    bplist_handle handle = {0};
    bplist_verdict verdict;
    uint8_t *file;
    int failed = 0;

    if (descriptor < 0 || fstat(descriptor, &info) != 0)
        return 1;
    file = mmap(NULL, (size_t)info.st_size, PROT_READ, MAP_PRIVATE, descriptor, 0);
    close(descriptor);
    if (file == MAP_FAILED || bplist_open(&handle, file, (size_t)info.st_size, false, &verdict) != BPLIST_OK)
        return 1;
    for (int i = 0; i < count && !failed; i++)
        failed = print_value(&handle, file, (size_t)info.st_size, paths[i]);
    return failed;
}
