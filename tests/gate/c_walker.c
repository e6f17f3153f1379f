/*
 * c_walker FILE..: for each file prints the line of `bplint lint`, and holds every call of bplist.h against the
 * others on it: opens it in each way, walks it, asks for parts that are not there, and hands in closed handles, other
 * lengths and short buffers. A call that answers otherwise than bplist.h says ends the run with status 3. Where a
 * growth was refused, the call is made again. With refuse_growth.c before it, it holds that no block is kept.
 */
#include "bplist.h"

#include <inttypes.h>
#include <stdio.h>
#include <stdlib.h>
#include <string.h>

#define MOST_NODES 2000
#define MOST_TEXT 4096

static uint64_t refusals;

/* How many blocks of memory are taken, where refuse_growth.so stands before the allocator. */
extern long blocks_taken(void) __attribute__((weak));

static long taken_now(void)
{
    return blocks_taken ? blocks_taken() : 0;
}

#define HOLDS(fact)                                                                    \
    do {                                                                               \
        if (!(fact)) {                                                                 \
            fprintf(stderr, "c_walker.c:%d: %s\n", __LINE__, #fact);                   \
            exit(3);                                                                   \
        }                                                                              \
    } while (0)

/* The status of a call, which is made again where a growth was refused. */
#define ASK(status, call)                                                              \
    do {                                                                               \
        (status) = (call);                                                             \
        if ((status) == BPLIST_MEMORY)                                                 \
            refusals++;                                                                \
    } while ((status) == BPLIST_MEMORY && refusals < 2)

struct file {
    const uint8_t *bytes;
    size_t length;
};

static const char *const WORDS[] = {"?",    "null", "false", "true", "int",   "real", "date",
                                    "data", "text", "text",  "uid",  "array", "set",  "dict"};

static void *taken(size_t length)
{
    void *block = malloc(length + 1);

    while (block == NULL)
        block = malloc(length + 1);
    return block;
}

static struct file read_file(const char *name)
{
    FILE *in = fopen(name, "rb");
    struct file file;
    uint8_t *bytes;
    long end;

    while (in == NULL)
        in = fopen(name, "rb");
    fseek(in, 0, SEEK_END);
    end = ftell(in);
    fseek(in, 0, SEEK_SET);
    file.length = (size_t)end;
    bytes = taken(file.length);
    HOLDS(fread(bytes, 1, file.length, in) == file.length);
    fclose(in);
    /* Its bytes end where the block does, so that valgrind sees a read behind them. */
    file.bytes = bytes;
    return file;
}

static void print_circle(struct file file, uint64_t length)
{
    uint32_t one;
    uint64_t count;
    uint32_t *objects = taken(length * sizeof *objects);
    bplist_status status;

    ASK(status, bplist_circle(file.bytes, file.length, &one, 0, &count));
    HOLDS(status == BPLIST_SHORT && count == length);
    ASK(status, bplist_circle(file.bytes, file.length, objects, length, &count));
    HOLDS(status == BPLIST_OK && count == length);
    printf("circle");
    for (uint64_t i = 0; i < count; i++)
        printf(" %" PRIu32, objects[i]);
    printf("\n");
    free(objects);
}

static void print_fault(struct file file, const bplist_verdict *verdict)
{
    char name[16] = {0};
    uint64_t count;
    uint32_t object;
    bplist_status status;

    if (verdict->rule == 23) {
        HOLDS(verdict->has_object == 1);
        print_circle(file, verdict->circle);
        return;
    }
    ASK(status, bplist_circle(file.bytes, file.length, &object, 1, &count));
    HOLDS(status == BPLIST_FAULT);
    HOLDS(bplist_rule_name(verdict->rule, name, 2, &count) == BPLIST_SHORT && name[0] == 0);
    HOLDS(bplist_rule_name(verdict->rule, name, sizeof name, &count) == BPLIST_OK && strlen(name) == count);
    printf("fault %s object ", name);
    if (verdict->has_object)
        printf("%" PRIu32, verdict->object);
    else
        printf("none");
    printf(" place %" PRIu64 "\n", verdict->place);
}

static void see_text(bplist_handle *handle, struct file file, uint32_t object, const bplist_body *body)
{
    uint16_t units[8];
    uint64_t count;

    for (uint64_t from = 0; from <= body->count; from += 8) {
        HOLDS(bplist_units(handle, file.bytes, file.length, object, from, units, 8, &count) == BPLIST_OK);
        HOLDS(count == (body->count - from < 8 ? body->count - from : 8));
        for (uint64_t i = 0; i < count; i++) {
            const uint8_t *at = file.bytes + body->place + (from + i) * (body->kind == BPLIST_WIDE ? 2 : 1);

            HOLDS(units[i] == (body->kind == BPLIST_WIDE ? at[0] << 8 | at[1] : at[0]));
        }
    }
    HOLDS(bplist_units(handle, file.bytes, file.length, object, body->count + 1, units, 8, &count) == BPLIST_OK);
    HOLDS(count == 0);
    HOLDS(bplist_units(handle, file.bytes, file.length, object, UINT64_MAX, units, 0, &count) == BPLIST_OK);
    HOLDS(count == 0);
}

/* Encodes units as UTF-8, at most three bytes for each. Returns the number of bytes, or UINT64_MAX if a half of a
   surrogate pair stands alone. */
static uint64_t encoded(const uint16_t *units, uint64_t count, uint8_t *out)
{
    uint64_t length = 0;

    for (uint64_t i = 0; i < count; i++) {
        uint32_t point = units[i];
        int more = point < 0x80 ? 0 : point < 0x800 ? 1 : 2;

        if (point >> 11 == 0xd800 >> 11) {
            if (point >> 10 != 0xd800 >> 10 || i + 1 == count || units[i + 1] >> 10 != 0xdc00 >> 10)
                return UINT64_MAX;
            point = 0x10000 + ((point & 0x3ff) << 10 | (units[++i] & 0x3ff));
            more = 3;
        }
        out[length++] = (uint8_t)(more == 0 ? point : (0xff00u >> (more + 1) & 0xff) | point >> 6 * more);
        while (more-- > 0)
            out[length++] = (uint8_t)(0x80 | (point >> 6 * more & 0x3f));
    }
    return length;
}

/* Room for so many bytes: `few`, which has 256, or a block of memory. */
static void *room_for(void *few, size_t length)
{
    return length < 256 ? few : taken(length);
}

/* The UTF-8 of a text, with room for it and without. Short texts take no memory, since each growth is refused once. */
static void see_utf8(bplist_handle *handle, struct file file, uint32_t object, const bplist_body *body)
{
    uint16_t few_units[128];
    uint8_t few_wanted[256];
    char few_text[256];
    uint16_t *units = room_for(few_units, body->count * sizeof *units);
    uint8_t *wanted = room_for(few_wanted, 3 * body->count);
    char *text = room_for(few_text, 3 * body->count);
    uint64_t length, count = 7;
    bplist_status status;

    HOLDS(bplist_units(handle, file.bytes, file.length, object, 0, units, body->count, &count) == BPLIST_OK);
    length = encoded(units, body->count, wanted);
    ASK(status, bplist_utf8(handle, file.bytes, file.length, object, NULL, 0, &count));
    if (length == UINT64_MAX) {
        HOLDS(status == BPLIST_UNPAIRED && count == body->count);
    } else {
        HOLDS(status == (length == 0 ? BPLIST_OK : BPLIST_SHORT) && count == length);
        text[length] = '!';
        ASK(status, bplist_utf8(handle, file.bytes, file.length, object, text, length, &count));
        HOLDS(status == BPLIST_OK && count == length && memcmp(text, wanted, length) == 0 && text[length] == '!');
    }
    if (units != few_units)
        free(units);
    if (wanted != few_wanted)
        free(wanted);
    if (text != few_text)
        free(text);
}

/* The bytes of the body, by parts of 16: the first of them and the last. */
static void see_body(bplist_handle *handle, struct file file, uint32_t object, const bplist_body *body)
{
    uint8_t bytes[17];
    uint64_t count;
    uint64_t last = body->length < 5 ? 0 : body->length - 5;
    const uint64_t starts[] = {0, 16, last, body->length, body->length + 1, UINT64_MAX};

    for (size_t i = 0; i < sizeof starts / sizeof *starts; i++) {
        uint64_t from = starts[i];
        uint64_t left = from < body->length ? body->length - from : 0;

        memset(bytes, 0xaa, sizeof bytes);
        HOLDS(bplist_read(handle, file.bytes, file.length, object, from, bytes, 16, &count) == BPLIST_OK);
        HOLDS(count == (left < 16 ? left : 16) && bytes[count] == 0xaa);
        HOLDS(count == 0 || memcmp(bytes, file.bytes + body->place + from, count) == 0);
    }
    HOLDS(bplist_read(handle, file.bytes, file.length, object, 0, bytes, 0, &count) == BPLIST_OK && count == 0);
}

/* The members in blocks of `room`, which are those that bplist_member gives one by one. */
static void see_block(bplist_handle *handle, struct file file, uint32_t object, uint64_t members, uint64_t from,
                      uint64_t room)
{
    uint32_t objects[201];
    uint32_t member;
    uint64_t count;
    uint64_t left = from < members ? members - from : 0;

    memset(objects, 0xaa, sizeof objects);
    HOLDS(bplist_members(handle, file.bytes, file.length, object, from, objects, room, &count) == BPLIST_OK);
    HOLDS(count == (left < room ? left : room) && objects[count] == 0xaaaaaaaa);
    for (uint64_t i = 0; i < count; i++) {
        HOLDS(bplist_member(handle, file.bytes, file.length, object, from + i, &member) == BPLIST_OK);
        HOLDS(objects[i] == member);
    }
}

/* The bodies of a block of members, of an object that may be unreachable and of one that is not there: those that
   bplist_face gives. */
static void see_faces(bplist_handle *handle, struct file file, uint32_t object, uint64_t room)
{
    static const bplist_body none;
    uint32_t objects[5] = {0, 0, 0, 0, UINT32_MAX};
    bplist_body bodies[6], body;
    uint64_t members, count;

    HOLDS(bplist_members(handle, file.bytes, file.length, object, 0, objects, 4, &members) == BPLIST_OK);
    memset(bodies, 0xaa, sizeof bodies);
    HOLDS(bplist_faces(handle, file.bytes, file.length, objects, 5, bodies, room, &count) == BPLIST_OK);
    HOLDS(count == (room < 5 ? room : 5) && bodies[count].kind == 0xaaaaaaaa);
    for (uint64_t i = 0; i < count; i++) {
        bplist_status status = bplist_face(handle, file.bytes, file.length, objects[i], &body);

        HOLDS(status == BPLIST_OK || (status == BPLIST_NO_OBJECT && i >= members));
        HOLDS(status == BPLIST_NO_OBJECT || i < 4);
        body = status == BPLIST_OK ? body : none;
        HOLDS(bodies[i].kind == body.kind && bodies[i].count == body.count);
        HOLDS(bodies[i].place == body.place && bodies[i].length == body.length);
    }
}

static void see_members(bplist_handle *handle, struct file file, uint32_t object, uint64_t members)
{
    static const uint64_t rooms[] = {0, 1, 2, 64, 65, 200};

    for (size_t i = 0; i < sizeof rooms / sizeof *rooms; i++) {
        see_block(handle, file, object, members, 0, rooms[i]);
        see_block(handle, file, object, members, 1, rooms[i]);
        see_block(handle, file, object, members, members / 2, rooms[i]);
        see_block(handle, file, object, members, members < 3 ? 0 : members - 3, rooms[i]);
        see_block(handle, file, object, members, members, rooms[i]);
        see_block(handle, file, object, members, UINT64_MAX, rooms[i]);
    }
    for (uint64_t room = 0; room <= 6; room++)
        see_faces(handle, file, object, room);
}

/* The integer by the bytes of its body: 1, 2 and 4 have no sign. */
static void see_int(bplist_handle *handle, struct file file, uint32_t object, const bplist_body *body)
{
    bool below = body->length >= 8 && file.bytes[body->place] >> 7 == 1;
    bplist_integer expected = {below ? UINT64_MAX : 0, below ? UINT64_MAX : 0};
    bplist_integer found;

    for (uint64_t i = 0; i < body->length; i++) {
        expected.high = expected.high << 8 | expected.low >> 56;
        expected.low = expected.low << 8 | file.bytes[body->place + i];
    }
    HOLDS(bplist_int(handle, file.bytes, file.length, object, &found) == BPLIST_OK);
    HOLDS(found.low == expected.low && found.high == expected.high);
}

/* The bits of a real or a date by the bytes of its body. */
static void see_number(bplist_handle *handle, struct file file, uint32_t object, const bplist_body *body)
{
    bool is_number = body->kind == BPLIST_REAL || body->kind == BPLIST_DATE;
    bplist_bits number = {1, 2};
    uint64_t bits = 0;

    for (uint64_t i = 0; i < body->length && is_number; i++)
        bits = bits << 8 | file.bytes[body->place + i];
    if (bplist_number(handle, file.bytes, file.length, object, &number) == BPLIST_OK)
        HOLDS(is_number && number.bits == bits && number.length == body->length && (bits >> 32 == 0 || body->length == 8));
    else
        HOLDS(!is_number && number.bits == 1 && number.length == 2);
}

static void see_size(bplist_handle *handle, struct file file, uint32_t object)
{
    bplist_sizes sizes;
    bplist_written written;
    bplist_status status;
    char none = 'x';
    char *text;

    ASK(status, bplist_size(handle, file.bytes, file.length, object, &sizes));
    HOLDS(status == BPLIST_OK && sizes.nodes >= 1);
    ASK(status, bplist_text(handle, file.bytes, file.length, object, &none, 0, &written));
    if (!sizes.has_text) {
        HOLDS(status == BPLIST_NO_TEXT && written.length == 0 && none == 'x');
        return;
    }
    HOLDS(status == BPLIST_SHORT && written.length == sizes.text && written.object == 0 && none == 'x');
    if (sizes.text > MOST_TEXT)
        return;
    text = taken(sizes.text);
    text[sizes.text] = '!';
    ASK(status, bplist_text(handle, file.bytes, file.length, object, text, sizes.text, &written));
    HOLDS(status == BPLIST_OK && written.length == sizes.text && text[sizes.text] == '!');
    for (uint64_t i = 0; i < sizes.text; i++)
        HOLDS(text[i] >= ' ' && text[i] <= '~');
    free(text);
}

/* One step by the units of each text key leads to its value, and so does one by its UTF-8 if it has any. */
static void see_keys(bplist_handle *handle, struct file file, uint32_t object, uint64_t pairs)
{
    uint16_t units[64];
    char utf8[3 * 64];
    uint64_t count;
    uint32_t key, value, found;
    bplist_status status;

    for (uint64_t i = 0; i < pairs && i < 16; i++) {
        HOLDS(bplist_member(handle, file.bytes, file.length, object, 2 * i, &key) == BPLIST_OK);
        HOLDS(bplist_member(handle, file.bytes, file.length, object, 2 * i + 1, &value) == BPLIST_OK);
        HOLDS(bplist_units(handle, file.bytes, file.length, key, 0, units, 64, &count) == BPLIST_OK);
        if (count == 64)
            continue;
        HOLDS(bplist_find_key(handle, file.bytes, file.length, object, units, count, &found) == BPLIST_OK);
        HOLDS(found == value);
        ASK(status, bplist_utf8(handle, file.bytes, file.length, key, utf8, sizeof utf8, &count));
        if (status == BPLIST_UNPAIRED)
            continue;
        HOLDS(status == BPLIST_OK);
        found = ~value;
        ASK(status, bplist_find_utf8(handle, file.bytes, file.length, object, utf8, count, &found));
        HOLDS(status == BPLIST_OK && found == value);
    }
}

static void walk(bplist_handle *handle, struct file file, uint32_t object, uint64_t *nodes)
{
    bplist_body body;
    bplist_integer number;
    uint32_t member, uid;
    uint16_t unit;
    uint64_t count;
    uint64_t members;
    char letter;

    if (++*nodes > MOST_NODES)
        return;
    HOLDS(bplist_face(handle, file.bytes, file.length, object, &body) == BPLIST_OK);
    HOLDS(body.kind >= BPLIST_NULL && body.kind <= BPLIST_DICT);
    HOLDS(body.place + body.length <= file.length);
    members = body.kind == BPLIST_DICT ? 2 * body.count : body.kind >= BPLIST_ARRAY ? body.count : 0;
    HOLDS(bplist_member(handle, file.bytes, file.length, object, members, &member) == BPLIST_NO_MEMBER);
    HOLDS(bplist_member(handle, file.bytes, file.length, object, UINT64_MAX, &member) == BPLIST_NO_MEMBER);
    see_members(handle, file, object, members);
    see_body(handle, file, object, &body);
    if (body.kind == BPLIST_INT)
        see_int(handle, file, object, &body);
    else
        HOLDS(bplist_int(handle, file.bytes, file.length, object, &number) == BPLIST_OTHER_KIND);
    HOLDS(bplist_uid(handle, file.bytes, file.length, object, &uid)
          == (body.kind == BPLIST_UID ? BPLIST_OK : BPLIST_OTHER_KIND));
    see_number(handle, file, object, &body);
    if (body.kind == BPLIST_ASCII || body.kind == BPLIST_WIDE) {
        see_text(handle, file, object, &body);
        see_utf8(handle, file, object, &body);
    } else {
        HOLDS(bplist_units(handle, file.bytes, file.length, object, 0, &unit, 1, &count) == BPLIST_OTHER_KIND);
        HOLDS(bplist_utf8(handle, file.bytes, file.length, object, &letter, 1, &count) == BPLIST_OTHER_KIND);
    }
    if (body.kind == BPLIST_DICT)
        see_keys(handle, file, object, body.count);
    for (uint64_t i = 0; i < members && *nodes <= MOST_NODES; i++) {
        HOLDS(bplist_member(handle, file.bytes, file.length, object, i, &member) == BPLIST_OK);
        walk(handle, file, member, nodes);
    }
}

static void see_refusals(bplist_handle *handle, struct file file, const bplist_verdict *verdict)
{
    bplist_found found;
    bplist_body body;
    bplist_sizes sizes;
    bplist_verdict again;
    uint32_t object = 7;
    uint64_t count = 9;
    uint8_t byte = 11;
    bplist_bits bits = {3, 5};
    char text[1];
    bplist_status status;

    ASK(status, bplist_open(handle, file.bytes, file.length, false, &again));
    HOLDS(status == BPLIST_OPENED);
    HOLDS(bplist_face(handle, file.bytes, file.length - 1, verdict->top, &body) == BPLIST_OTHER_FILE);
    status = bplist_faces(handle, file.bytes, file.length - 1, &object, 1, &body, 1, &count);
    HOLDS(status == BPLIST_OTHER_FILE && count == 9);
    HOLDS(bplist_face(handle, file.bytes, file.length, UINT32_MAX, &body) == BPLIST_NO_OBJECT);
    HOLDS(bplist_member(handle, file.bytes, file.length, UINT32_MAX, 0, &object) == BPLIST_NO_OBJECT && object == 7);
    HOLDS(bplist_members(handle, file.bytes, file.length, UINT32_MAX, 0, &object, 1, &count) == BPLIST_NO_OBJECT);
    HOLDS(bplist_read(handle, file.bytes, file.length, UINT32_MAX, 0, &byte, 1, &count) == BPLIST_NO_OBJECT);
    status = bplist_members(handle, file.bytes, file.length - 1, verdict->top, 0, &object, 1, &count);
    HOLDS(status == BPLIST_OTHER_FILE);
    status = bplist_read(handle, file.bytes, file.length - 1, verdict->top, 0, &byte, 1, &count);
    HOLDS(status == BPLIST_OTHER_FILE);
    HOLDS(object == 7 && count == 9 && byte == 11);
    HOLDS(bplist_size(handle, file.bytes, file.length, UINT32_MAX, &sizes) == BPLIST_NO_OBJECT);
    HOLDS(bplist_find_key(handle, file.bytes, file.length, UINT32_MAX, (const uint16_t[]){0}, 1, &object) == BPLIST_NO_OBJECT);
    ASK(status, bplist_find_utf8(handle, file.bytes, file.length, UINT32_MAX, "k", 1, &object));
    HOLDS(status == BPLIST_NO_OBJECT);
    ASK(status, bplist_find_utf8(handle, file.bytes, file.length, verdict->top, "k\xff", 2, &object));
    HOLDS(status == BPLIST_NOT_UTF8);
    ASK(status, bplist_find_utf8(handle, file.bytes, file.length, verdict->top, "no such key", 11, &object));
    HOLDS((status == BPLIST_NO_KEY || status == BPLIST_NO_INDEX || status == BPLIST_NOT_STEPPABLE) && object == 7);
    HOLDS(bplist_number(handle, file.bytes, file.length, UINT32_MAX, &bits) == BPLIST_NO_OBJECT && bits.length == 5);
    HOLDS(bplist_utf8(handle, file.bytes, file.length, UINT32_MAX, text, 1, &count) == BPLIST_NO_OBJECT && count == 9);
    ASK(status, bplist_find(handle, file.bytes, file.length, "x", 1, &found));
    HOLDS(status == BPLIST_PATH_TEXT && found.step == 0);
    ASK(status, bplist_find(handle, file.bytes, file.length, "/~2", 3, &found));
    HOLDS(status == BPLIST_PATH_TEXT && found.step == 1);
    ASK(status, bplist_find(handle, file.bytes, file.length, "/\xff", 2, &found));
    HOLDS(status == BPLIST_NOT_UTF8);
    ASK(status, bplist_find(handle, file.bytes, file.length, "/no such key", 12, &found));
    HOLDS((status == BPLIST_NO_KEY || status == BPLIST_NO_INDEX || status == BPLIST_NOT_STEPPABLE) && found.step == 0);
}

/* What has no elements may be NULL. */
static void see_nulls(bplist_handle *handle, struct file file, const bplist_verdict *top)
{
    const uint8_t *bytes = file.bytes;
    size_t length = file.length;
    bplist_handle other = {0};
    bplist_verdict verdict;
    bplist_found found;
    bplist_written written;
    bplist_status status;
    uint64_t count = 5;
    uint32_t object;

    ASK(status, bplist_lint(NULL, 0, &verdict));
    HOLDS(status == BPLIST_FAULT && verdict.rule == 2 && verdict.place == 0);
    ASK(status, bplist_circle(bytes, length, NULL, 0, &count));
    HOLDS(status == BPLIST_NO_RULE);
    ASK(status, bplist_looks_like(NULL, 0, NULL, 0, &count));
    HOLDS(status == BPLIST_OK || status == BPLIST_SHORT);
    HOLDS(bplist_rule_name(2, NULL, 0, &count) == BPLIST_SHORT && count == strlen("TooShort"));
    ASK(status, bplist_open_certified(&other, bytes, length, NULL, 0, false, &verdict));
    HOLDS(status == BPLIST_FAULT && verdict.rule == 24);
    ASK(status, bplist_certificate(handle, NULL, 0, &count));
    HOLDS(status == BPLIST_SHORT && count >= 16);
    ASK(status, bplist_find(handle, bytes, length, NULL, 0, &found));
    HOLDS(status == BPLIST_OK && found.object == top->top);
    status = bplist_find_key(handle, bytes, length, top->top, NULL, 0, &object);
    HOLDS(status == BPLIST_OK || (status >= BPLIST_NO_KEY && status <= BPLIST_NOT_STEPPABLE));
    ASK(status, bplist_find_utf8(handle, bytes, length, top->top, NULL, 0, &object));
    HOLDS(status == BPLIST_OK || (status >= BPLIST_NO_KEY && status <= BPLIST_NOT_STEPPABLE));
    HOLDS(bplist_faces(handle, bytes, length, NULL, 0, NULL, 0, &count) == BPLIST_OK && count == 0);
    HOLDS(bplist_members(handle, bytes, length, top->top, 0, NULL, 0, &count) == BPLIST_OK && count == 0);
    HOLDS(bplist_read(handle, bytes, length, top->top, 0, NULL, 0, &count) == BPLIST_OK && count == 0);
    status = bplist_units(handle, bytes, length, top->top, 0, NULL, 0, &count);
    HOLDS(status == BPLIST_OTHER_KIND || (status == BPLIST_OK && count == 0));
    ASK(status, bplist_text(handle, bytes, length, top->top, NULL, 0, &written));
    HOLDS(status == BPLIST_SHORT || status == BPLIST_NO_TEXT);
}

static void see_file(bplist_handle *handle, struct file file, const bplist_verdict *verdict)
{
    bplist_found found;
    bplist_status status;
    uint64_t nodes = 0;

    ASK(status, bplist_find(handle, file.bytes, file.length, "", 0, &found));
    HOLDS(status == BPLIST_OK && found.object == verdict->top && found.step == 0);
    see_refusals(handle, file, verdict);
    see_size(handle, file, verdict->top);
    walk(handle, file, verdict->top, &nodes);
}

static void see_closed(bplist_handle *handle, struct file file)
{
    bplist_body body;
    bplist_found found;
    uint64_t count = 5;
    uint32_t object;
    uint8_t byte;

    HOLDS(handle->length == 0);
    HOLDS(bplist_close(handle) == BPLIST_CLOSED);
    HOLDS(bplist_face(handle, file.bytes, file.length, 0, &body) == BPLIST_CLOSED);
    HOLDS(bplist_faces(handle, file.bytes, file.length, (const uint32_t[]){0}, 1, &body, 1, &count) == BPLIST_CLOSED);
    HOLDS(bplist_find(handle, file.bytes, file.length, "", 0, &found) == BPLIST_CLOSED);
    HOLDS(bplist_members(handle, file.bytes, file.length, 0, 0, &object, 1, &count) == BPLIST_CLOSED);
    HOLDS(bplist_read(handle, file.bytes, file.length, 0, 0, &byte, 1, &count) == BPLIST_CLOSED);
    HOLDS(bplist_certificate(handle, &byte, 1, &count) == BPLIST_CLOSED && count == 5);
    HOLDS(bplist_find_utf8(handle, file.bytes, file.length, 0, "k", 1, &object) == BPLIST_CLOSED);
    HOLDS(bplist_utf8(handle, file.bytes, file.length, 0, (char *)&byte, 1, &count) == BPLIST_CLOSED);
}

/* Opens the file by the certificate of the handle, and sees the same. */
static void see_certified(bplist_handle *handle, struct file file, bool sorted)
{
    bplist_handle other = {0};
    bplist_verdict verdict;
    bplist_status status;
    uint64_t count;
    uint8_t byte;
    uint8_t *certificate;

    ASK(status, bplist_certificate(handle, &byte, 0, &count));
    HOLDS(status == BPLIST_SHORT && count >= 16);
    certificate = taken(count);
    ASK(status, bplist_certificate(handle, certificate, count, &count));
    HOLDS(status == BPLIST_OK && memcmp(certificate, sorted ? "bplcert2" : "bplcert1", 8) == 0);
    ASK(status, bplist_open_certified(&other, file.bytes, file.length, certificate, count, sorted, &verdict));
    HOLDS(status == BPLIST_OK && verdict.reached == 0 && verdict.height >= 1);
    see_file(&other, file, &verdict);
    HOLDS(bplist_close(&other) == BPLIST_OK);
    ASK(status, bplist_open_certified(&other, file.bytes, file.length, certificate, count - 1, sorted, &verdict));
    HOLDS(status == BPLIST_FAULT && verdict.rule == 25 && verdict.place == count - 1);
    certificate[0] = 'B';
    ASK(status, bplist_open_certified(&other, file.bytes, file.length, certificate, count, sorted, &verdict));
    HOLDS(status == BPLIST_FAULT && verdict.rule == 24);
    see_closed(&other, file);
    free(certificate);
}

/* A sound file looks like nothing else. */
static void see_look(struct file file, bool is_sound)
{
    char words[200], one = 7;
    uint64_t count, again;
    bplist_status status;

    ASK(status, bplist_looks_like(file.bytes, file.length, words, sizeof words, &count));
    HOLDS(status == BPLIST_OK && (count == 0 || !is_sound));
    if (count > 0) {
        ASK(status, bplist_looks_like(file.bytes, file.length, &one, 1, &again));
        HOLDS(status == BPLIST_SHORT && again == count && one == 7);
    }
}

static void see(const char *name)
{
    long before = taken_now();
    struct file file = read_file(name);
    bplist_handle handle = {0};
    bplist_verdict linted, opened;
    bplist_status status;

    memset(&linted, 0xaa, sizeof linted);
    memset(&opened, 0xaa, sizeof opened);
    ASK(status, bplist_lint(file.bytes, file.length, &linted));
    HOLDS(status == BPLIST_OK || status == BPLIST_FAULT);
    see_closed(&handle, file);
    for (int sorted = 0; sorted <= 1; sorted++) {
        ASK(status, bplist_open(&handle, file.bytes, file.length, sorted == 1, &opened));
        HOLDS(memcmp(&linted, &opened, sizeof linted) == 0);
        if (status == BPLIST_FAULT)
            break;
        HOLDS(status == BPLIST_OK);
        see_file(&handle, file, &linted);
        see_nulls(&handle, file, &linted);
        see_certified(&handle, file, sorted == 1);
        HOLDS(bplist_close(&handle) == BPLIST_OK);
    }
    see_closed(&handle, file);
    see_look(file, status != BPLIST_FAULT);
    if (status == BPLIST_FAULT)
        print_fault(file, &linted);
    else
        printf("ok reached %" PRIu64 " height %" PRIu32 " top %s\n", linted.reached, linted.height, WORDS[linted.top_kind]);
    free((void *)file.bytes);
    HOLDS(taken_now() == before);
}

/* Each rule and each status has one sentence. */
static void see_words(void)
{
    char name[16];
    char text[201] = {0};
    uint64_t count = 3;

    HOLDS(bplist_rule_name(0, name, sizeof name, &count) == BPLIST_NO_RULE && count == 3);
    HOLDS(bplist_rule_name(33, name, sizeof name, &count) == BPLIST_NO_RULE);
    HOLDS(bplist_rule_text(0, text, sizeof text, &count) == BPLIST_NO_RULE);
    HOLDS(bplist_rule_text(33, text, sizeof text, &count) == BPLIST_NO_RULE);
    HOLDS(bplist_status_text(BPLIST_UNPAIRED + 1, text, sizeof text, &count) == BPLIST_NO_STATUS);
    HOLDS(bplist_status_text(UINT32_MAX, text, sizeof text, &count) == BPLIST_NO_STATUS && count == 3);
    for (uint32_t rule = 1; rule <= 32; rule++) {
        HOLDS(bplist_rule_text(rule, text, 200, &count) == BPLIST_OK && count >= 2);
        HOLDS(text[count - 1] == '.');
    }
    for (bplist_status status = BPLIST_OK; status <= BPLIST_UNPAIRED; status++) {
        HOLDS(bplist_status_text(status, text, 200, &count) == BPLIST_OK && count >= 2);
        HOLDS(text[count - 1] == '.');
    }
    HOLDS(bplist_rule_text(22, text, 200, &count) == BPLIST_OK);
    HOLDS(strncmp(text, "The keys of a dictionary differ.", count) == 0);
    HOLDS(bplist_status_text(BPLIST_CLOSED, text, 200, &count) == BPLIST_OK);
    HOLDS(strncmp(text, "The handle is closed.", count) == 0);
    HOLDS(bplist_status_text(BPLIST_NO_STATUS, text, 5, &count) == BPLIST_SHORT);
    HOLDS(count == strlen("There is no status with that number.") && strncmp(text, "The handle", 10) == 0);
}

static void see_version(void)
{
    char version[32];

    HOLDS(bplist_version() == BPLIST_VERSION_NUM);
    snprintf(version, sizeof version, "%d.%d.%d", BPLIST_VERSION_MAJOR, BPLIST_VERSION_MINOR, BPLIST_VERSION_PATCH);
    HOLDS(strcmp(version, BPLIST_VERSION) == 0);
}

int main(int argc, char **argv)
{
    static char buffer[BUFSIZ];

    /* So that printing takes no block. */
    setvbuf(stdout, buffer, _IOFBF, sizeof buffer);
    see_words();
    see_version();
    for (int i = 1; i < argc; i++)
        see(argv[i]);
    /* Memory is refused to a call only where a growth was, which is once. */
    HOLDS(refusals <= (blocks_taken ? 1 : 0));
    return 0;
}
