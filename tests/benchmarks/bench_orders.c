/*
 * bench_orders FILE PATH: opens a property list in each of four ways, and looks up a path. Prints for each way the
 * processor time of opening it, in milliseconds, and of one look-up, in microseconds; each is the least of some rounds.
 */
#include <bplist.h>

#include <stdio.h>
#include <stdlib.h>
#include <string.h>
#include <time.h>

#define ROUNDS 15
#define LOOKUPS 200

/* Linted, linted and sorted, with a certificate, with a sorted certificate. */
enum { WAYS = 4 };

struct bytes {
    uint8_t *at;
    size_t length;
};

static double now(void)
{
    struct timespec time;

    clock_gettime(CLOCK_PROCESS_CPUTIME_ID, &time);
    return (double)time.tv_sec * 1e3 + (double)time.tv_nsec / 1e6;
}

static void expect(int is_so)
{
    if (!is_so) {
        fputs("a call failed\n", stderr);
        exit(1);
    }
}

static struct bytes read_file(const char *name)
{
    FILE *in = fopen(name, "rb");
    struct bytes file;

    expect(in != NULL && fseek(in, 0, SEEK_END) == 0);
    file.length = (size_t)ftell(in);
    rewind(in);
    file.at = malloc(file.length);
    expect(file.at != NULL && fread(file.at, 1, file.length, in) == file.length);
    fclose(in);
    return file;
}

static void open_by(bplist_handle *handle, struct bytes file, int way, const struct bytes *certificates)
{
    bplist_verdict verdict;
    const struct bytes *certificate = &certificates[way % 2];

    if (way < 2)
        expect(bplist_open(handle, file.at, file.length, way == 1, &verdict) == BPLIST_OK);
    else
        expect(bplist_open_certified(handle, file.at, file.length, certificate->at, certificate->length, way == 3, &verdict)
               == BPLIST_OK);
}

static struct bytes certificate_of(struct bytes file, int is_sorted)
{
    bplist_handle handle = {0};
    struct bytes made;
    uint64_t length;

    open_by(&handle, file, is_sorted, NULL);
    expect(bplist_certificate(&handle, NULL, 0, &length) == BPLIST_SHORT);
    made.length = length;
    made.at = malloc(length);
    expect(made.at != NULL && bplist_certificate(&handle, made.at, made.length, &length) == BPLIST_OK);
    bplist_close(&handle);
    return made;
}

int main(int argc, char **argv)
{
    struct bytes file = read_file(argc == 3 ? argv[1] : "");
    const struct bytes certificates[2] = {certificate_of(file, 0), certificate_of(file, 1)};
    double opened[WAYS], found[WAYS];

    for (int round = 0; round < ROUNDS; round++) {
        for (int way = 0; way < WAYS; way++) {
            bplist_handle handle = {0};
            bplist_found where;
            double begun = now(), between, taken;

            open_by(&handle, file, way, certificates);
            between = now();
            for (int i = 0; i < LOOKUPS; i++)
                expect(bplist_find(&handle, file.at, file.length, argv[2], strlen(argv[2]), &where) == BPLIST_OK);
            taken = (now() - between) * 1e3 / LOOKUPS;
            bplist_close(&handle);
            opened[way] = round == 0 || between - begun < opened[way] ? between - begun : opened[way];
            found[way] = round == 0 || taken < found[way] ? taken : found[way];
        }
    }
    for (int way = 0; way < WAYS; way++)
        printf("%.3f\t%.3f\n", opened[way], found[way]);
    return 0;
}
