/*
 * c_changing FILE each
 * c_changing FILE thread|process MILLISECONDS
 *
 * Calls the library on a mapped file that changes, and holds its answers against what bplist.h says of such files. The
 * map is shared, and ends before a page that nobody may read; in every other run it begins after one. Ends with status
 * 3 if an answer is out of bounds, and by a signal or never if a call does what bplist.h excludes.
 *
 * each: opens the file, changes one byte after the other to each of 11 values, makes every call, and puts it back.
 * thread, process: makes every call for so long, while another thread or process changes the file and puts it back.
 */
#define _GNU_SOURCE
#include <bplist.h>

#include <inttypes.h>
#include <pthread.h>
#include <signal.h>
#include <stdio.h>
#include <stdlib.h>
#include <string.h>
#include <sys/mman.h>
#include <sys/wait.h>
#include <time.h>
#include <unistd.h>

enum { ROOM = 64, GUARD = 16, TEXT_ROOM = 512, MOST_OBJECTS = 40, MARK = 0xa5 };

struct map {
    uint8_t *file;
    size_t length;
    uint8_t *sound;
};

static uint64_t opened, refused, calls;

static void expect(bool right, const char *what)
{
    if (!right) {
        fprintf(stderr, "%s\n", what);
        exit(3);
    }
}

/* A random number (xorshift). */
static uint64_t next(uint64_t *state)
{
    *state ^= *state << 13;
    *state ^= *state >> 7;
    *state ^= *state << 17;
    return *state;
}

/* Puts the file into a shared map beside a page that may not be read: behind it, or before it. */
static struct map mapped(const char *name, bool behind)
{
    size_t page = (size_t)sysconf(_SC_PAGESIZE);
    FILE *in = fopen(name, "rb");
    struct map map;
    uint8_t *pages;
    size_t room;
    FILE *shared = tmpfile();

    expect(in != NULL && shared != NULL && fseek(in, 0, SEEK_END) == 0, "the file cannot be read");
    map.length = (size_t)ftell(in);
    rewind(in);
    map.sound = malloc(map.length);
    expect(map.sound != NULL && fread(map.sound, 1, map.length, in) == map.length, "the file cannot be read");
    fclose(in);
    room = (map.length + page - 1) / page * page;
    pages = mmap(NULL, room + 2 * page, PROT_NONE, MAP_PRIVATE | MAP_ANONYMOUS, -1, 0);
    expect(pages != MAP_FAILED && ftruncate(fileno(shared), (off_t)room) == 0, "no map");
    map.file = mmap(pages + page, room, PROT_READ | PROT_WRITE, MAP_SHARED | MAP_FIXED, fileno(shared), 0);
    expect(map.file != MAP_FAILED, "no map");
    if (behind)
        map.file += room - map.length;
    memcpy(map.file, map.sound, map.length);
    return map;
}

/* Holds the status of a call with `count` of `room` elements of `size` bytes, and the bytes behind them. */
static void held(bplist_status status, uint64_t count, const void *buffer, size_t size)
{
    const uint8_t *behind = (const uint8_t *)buffer + ROOM * size;

    calls++;
    /* Nothing refuses memory here, and a program may repeat a call to which it was refused. */
    expect(status != BPLIST_MEMORY, "memory was refused");
    expect(status <= BPLIST_UNPAIRED, "no such status");
    expect(status != BPLIST_OK || count <= ROOM, "more than the room");
    for (size_t i = 0; i < GUARD; i++)
        expect(behind[i] == MARK, "written behind the buffer");
}

static void body_held(const struct map *map, const bplist_body *body)
{
    expect(body->kind <= BPLIST_DICT, "no such kind");
    expect(body->place <= map->length && body->length <= map->length - body->place, "a body outside of the file");
}

/* Walks over the members of an object as docs/LIBRARY.md does. */
static void walk(bplist_handle *handle, const struct map *map, uint32_t object)
{
    uint32_t objects[ROOM + GUARD];
    bplist_body bodies[ROOM + 1];
    uint64_t from = 0, count = 0, written = 0;

    memset(objects, MARK, sizeof objects);
    memset(bodies, MARK, sizeof bodies);
    do {
        bplist_status status = bplist_members(handle, map->file, map->length, object, from, objects, ROOM, &count);

        held(status, count, objects, sizeof *objects);
        if (status != BPLIST_OK)
            return;
        status = bplist_faces(handle, map->file, map->length, objects, count, bodies, ROOM, &written);
        held(status, written, bodies, sizeof *bodies);
        expect(status == BPLIST_OK && written == count, "not as many bodies as objects");
        for (uint64_t i = 0; i < count; i++)
            body_held(map, &bodies[i]);
        from += count;
    } while (count == ROOM);
}

/* Makes every call that reads one object. */
static void read_object(bplist_handle *handle, const struct map *map, uint32_t object)
{
    static const uint16_t key[] = {'k', '1'};
    uint8_t bytes[ROOM + GUARD];
    uint16_t units[ROOM + GUARD];
    bplist_body body = {0};
    bplist_integer number;
    bplist_bits bits;
    uint64_t count = 0;
    uint32_t found;
    bplist_status status = bplist_face(handle, map->file, map->length, object, &body);

    held(status, 0, memset(bytes, MARK, sizeof bytes), 1);
    body_held(map, &body);
    memset(units, MARK, sizeof units);
    status = bplist_read(handle, map->file, map->length, object, 0, bytes, ROOM, &count);
    held(status, count, bytes, 1);
    status = bplist_units(handle, map->file, map->length, object, 0, units, ROOM, &count);
    held(status, count, units, sizeof *units);
    memset(bytes, MARK, sizeof bytes);
    status = bplist_utf8(handle, map->file, map->length, object, (char *)bytes, ROOM, &count);
    held(status, count, bytes, 1);
    held(bplist_number(handle, map->file, map->length, object, &bits), 0, bytes, 1);
    held(bplist_find_utf8(handle, map->file, map->length, object, "k1", 2, &found), 0, bytes, 1);
    held(bplist_int(handle, map->file, map->length, object, &number), 0, bytes, 1);
    held(bplist_uid(handle, map->file, map->length, object, &found), 0, bytes, 1);
    held(bplist_member(handle, map->file, map->length, object, 1, &found), 0, bytes, 1);
    held(bplist_find_key(handle, map->file, map->length, object, key, 2, &found), 0, bytes, 1);
    walk(handle, map, object);
}

/* Measures and writes the value of an object. */
static void write_object(bplist_handle *handle, const struct map *map, uint32_t object)
{
    char text[TEXT_ROOM + GUARD];
    bplist_sizes sizes;
    bplist_written written = {0, 0};
    bplist_status status;

    memset(text, MARK, sizeof text);
    held(bplist_size(handle, map->file, map->length, object, &sizes), 0, text + TEXT_ROOM - ROOM, 1);
    status = bplist_text(handle, map->file, map->length, object, text, TEXT_ROOM, &written);
    held(status, 0, text + TEXT_ROOM - ROOM, 1);
    expect(status != BPLIST_OK || written.length <= TEXT_ROOM, "a text longer than the room");
}

/* Makes every call that an open handle takes. */
static void use(bplist_handle *handle, const struct map *map, uint32_t objects)
{
    static const char *const paths[] = {"", "/list/2/x", "/k1", "/list/0", "/a/b/c", "/text", "/k1/deep/deeper/1"};
    bplist_found found;

    for (size_t i = 0; i < sizeof paths / sizeof *paths; i++) {
        calls++;
        expect(bplist_find(handle, map->file, map->length, paths[i], strlen(paths[i]), &found) <= BPLIST_UNPAIRED,
               "no such status");
    }
    for (uint32_t object = 0; object < objects + 2 && object < MOST_OBJECTS; object++)
        read_object(handle, map, object);
    write_object(handle, map, 0);
    write_object(handle, map, objects - 1);
}

static void verdict_held(bplist_status status, const bplist_verdict *verdict)
{
    calls++;
    expect(status == BPLIST_OK || status == BPLIST_FAULT || status == BPLIST_OTHER_FILE,
           "another status of a file");
    if (status == BPLIST_FAULT)
        expect(verdict->rule >= 1 && verdict->rule <= 32, "no such rule");
    if (status == BPLIST_OK) {
        expect(verdict->top < verdict->objects && verdict->height >= 1, "the top is no object");
        expect(verdict->top_kind >= BPLIST_NULL && verdict->top_kind <= BPLIST_DICT, "the top has no kind");
    }
}

/* Opens the file again with the certificate of the handle. */
static void certify(bplist_handle *handle, const struct map *map)
{
    bplist_handle again = {0};
    bplist_verdict verdict;
    uint64_t length = 0;
    bplist_status status = bplist_certificate(handle, NULL, 0, &length);
    uint8_t *certificate = malloc(length);

    expect(status == BPLIST_SHORT && certificate != NULL, "no certificate");
    expect(bplist_certificate(handle, certificate, length, &length) == BPLIST_OK, "no certificate");
    status = bplist_open_certified(&again, map->file, map->length, certificate, length, false, &verdict);
    verdict_held(status, &verdict);
    free(certificate);
    if (status != BPLIST_OK)
        return;
    use(&again, map, (uint32_t)verdict.objects);
    bplist_close(&again);
}

/* Lints the file, opens it, and uses it if it is open. */
static void open_and_use(const struct map *map, bool sorted)
{
    bplist_handle handle = {0};
    bplist_verdict verdict;
    uint32_t circle[ROOM + GUARD];
    char words[ROOM + GUARD];
    uint64_t count = 0;
    bplist_status status = bplist_lint(map->file, map->length, &verdict);

    verdict_held(status, &verdict);
    memset(circle, MARK, sizeof circle);
    memset(words, MARK, sizeof words);
    status = bplist_circle(map->file, map->length, circle, ROOM, &count);
    held(status, count, circle, sizeof *circle);
    status = bplist_looks_like(map->file, map->length, words, ROOM, &count);
    held(status, count, words, 1);
    status = bplist_open(&handle, map->file, map->length, sorted, &verdict);
    verdict_held(status, &verdict);
    if (status != BPLIST_OK) {
        refused++;
        return;
    }
    opened++;
    use(&handle, map, (uint32_t)verdict.objects);
    certify(&handle, map);
    bplist_close(&handle);
}

static void change_each(const struct map *map, bool sorted)
{
    static const uint8_t values[] = {0, 1, 2, 0x10, 0x50, 0x7f, 0x80, 0xa1, 0xd1, 0xdf, 0xff};
    bplist_handle handle = {0};
    bplist_verdict verdict;

    expect(bplist_open(&handle, map->file, map->length, sorted, &verdict) == BPLIST_OK, "the file is not sound");
    for (size_t place = 0; place < map->length; place++) {
        for (size_t i = 0; i < sizeof values; i++) {
            map->file[place] = values[i];
            use(&handle, map, (uint32_t)verdict.objects);
            certify(&handle, map);
            open_and_use(map, sorted);
        }
        map->file[place] = map->sound[place];
    }
    bplist_close(&handle);
}

/* Changes up to four bytes, and puts them back, for ever. */
static void *change(void *of)
{
    const struct map *map = of;
    volatile uint8_t *file = map->file;
    uint64_t state = 0x9e3779b97f4a7c15u;

    for (;;) {
        size_t places[4];
        size_t number = 1 + next(&state) % 4;

        for (size_t i = 0; i < number; i++) {
            places[i] = next(&state) % map->length;
            /* Every other change is in the trailer or the byte of a marker. */
            if (next(&state) % 2 == 0)
                places[i] = map->length - 1 - next(&state) % 32;
            file[places[i]] = (uint8_t)next(&state);
        }
        for (volatile uint64_t wait = next(&state) % 4096; wait > 0; wait--)
            ;
        for (size_t i = 0; i < number; i++)
            file[places[i]] = map->sound[places[i]];
        for (volatile uint64_t wait = next(&state) % 4096; wait > 0; wait--)
            ;
    }
    return NULL;
}

static int64_t now(void)
{
    struct timespec at;

    clock_gettime(CLOCK_MONOTONIC, &at);
    return (int64_t)at.tv_sec * 1000 + at.tv_nsec / 1000000;
}

static void race(const struct map *map, bool by_process, int64_t milliseconds)
{
    int64_t end = now() + milliseconds;
    pid_t writer = 0;

    if (by_process) {
        writer = fork();
        expect(writer >= 0, "no process");
        if (writer == 0) {
            alarm((unsigned)(milliseconds / 1000 + 60));
            change((void *)map);
        }
    } else {
        pthread_t thread;

        expect(pthread_create(&thread, NULL, change, (void *)map) == 0, "no thread");
    }
    for (bool sorted = false; now() < end; sorted = !sorted)
        open_and_use(map, sorted);
    if (writer > 0) {
        kill(writer, SIGKILL);
        waitpid(writer, NULL, 0);
    }
}

int main(int count, char **words)
{
    if (count < 3)
        return 2;
    for (int behind = 0; behind < 2; behind++) {
        struct map map = mapped(words[1], behind);

        if (strcmp(words[2], "each") == 0)
            change_each(&map, behind);
        else
            race(&map, strcmp(words[2], "process") == 0, count > 3 ? atoi(words[3]) : 1000);
        /* The thread goes on changing its file. */
        if (strcmp(words[2], "thread") == 0)
            break;
        free(map.sound);
    }
    printf("%" PRIu64 " calls, %" PRIu64 " opened, %" PRIu64 " refused\n", calls, opened, refused);
    fflush(stdout);
    _exit(0);
}
