/*
 * bplist.h: lint Apple's binary property lists (version bplist00), and read single
 * values of them without building a tree.
 *
 *     bplist_handle handle = {0};
 *     bplist_verdict verdict;
 *     bplist_found found;
 *     bplist_integer number;
 *
 *     if (bplist_open(&handle, file, length, false, &verdict) != BPLIST_OK)
 *         return refuse(&verdict);
 *     if (bplist_find(&handle, file, length, "/jobs/0/id", 10, &found) == BPLIST_OK
 *         && bplist_int(&handle, file, length, found.object, &number) == BPLIST_OK)
 *         use((int64_t)number.low);
 *     bplist_close(&handle);
 *
 * FILES AND OBJECTS
 *   A file is the `length` bytes at `file`, in the caller's memory. A place is the
 *   number of a byte in the file, counted from 0. A file is a table of objects. Each
 *   object has a number, counted from 0, and holds a value. The top object holds the
 *   value of the file. An object may be a member of many others, so a small file may
 *   hold a very large tree. Calls name a value by the number of its object.
 *
 *   No call builds a tree. A call takes memory only if its description says so, and
 *   frees it before it returns. An open handle keeps 4 bytes for each object. With
 *   sorted keys it keeps 4 more bytes for each object and 4 for each pair of a
 *   dictionary.
 *
 *   Where a description says how many bytes of the file a call reads at most, this is
 *   proved of the code that looks them up, and tested of bplist_text.
 *
 * RETURN VALUES
 *   Each call except bplist_version returns a status. BPLIST_OK means that the answer
 *   is in the outputs. With any other status the outputs are unchanged, unless the
 *   description of the call says otherwise. An output need not be initialized. No call
 *   prints, exits, or keeps a pointer that it was given.
 *
 * WHAT THE CALLER MUST ENSURE
 *   1. Each pointer points to as many elements as the call says, and nobody else writes
 *      to them during the call. If that number is 0, the pointer may be NULL or point
 *      anywhere; otherwise it is not NULL. Memory that the call writes to does not
 *      overlap any other memory that is passed to the call.
 *   2. A handle is all zeros before it is opened for the first time. Only the calls
 *      below change it. It may be moved, but not copied: if its two members are copied
 *      to other memory, only the copy is used from then on.
 *   3. The file passed with an open handle is the file that was opened: the same bytes,
 *      at the same or at another place in memory. (If the length differs, the call
 *      returns BPLIST_OTHER_FILE.)
 *   4. malloc, realloc and free belong to one allocator. No call is made from a signal
 *      handler, or in the child of a fork() of a process with threads.
 *   Everything else may be passed: any bytes as file, certificate or path, a closed
 *   handle, an object number that does not exist, a buffer that is too short.
 *
 * A FILE THAT CHANGES
 *   The proofs cover a file that keeps conditions 1 and 3. If another thread or process
 *   writes to its bytes, as to those of a mapped file, before or during a call, then
 *   tests show what is still so. Every call may be used. It returns, frees what it took,
 *   and reads and writes only inside what it is given. Its answer may be that of the old
 *   bytes, of the new ones, or of a mixture of both. Or there is none, and the status is
 *   BPLIST_OTHER_FILE or another that the call can return. With BPLIST_OK a count is at
 *   most the room, a body ends within the file, and the top of a verdict is below the
 *   number of objects. An object number that a call gives may be one that does not exist;
 *   the other calls then return BPLIST_NO_OBJECT. Calls on a handle do not find out that
 *   the bytes have changed: to check them again, close the handle and open it again.
 *   If a mapped file becomes shorter, a read past its new end raises SIGBUS.
 *
 * THREADS
 *   The proofs cover one thread. A caller with several threads must also ensure:
 *   1. Only one call at a time uses a handle. Threads that share a handle hold a lock
 *      during each call. A handle is passed to another thread like other memory: by a
 *      lock, a join or the like.
 *   2. malloc, realloc and free may be called by several threads at once.
 *   Then calls on different handles, and calls without a handle, may run at the same
 *   time, even on the same file. The library has no variables that it writes. A call
 *   touches only what it is given, what its handle holds, and memory that it takes for
 *   itself. This is tested, not proved.
 */
#ifndef BPLIST_H
#define BPLIST_H

#include <stdbool.h>
#include <stddef.h>
#include <stdint.h>

#ifdef __cplusplus
extern "C" {
#endif

/* The version of this header: 0.5.0. */
#define BPLIST_VERSION_MAJOR 0
#define BPLIST_VERSION_MINOR 5
#define BPLIST_VERSION_PATCH 0
#define BPLIST_VERSION "0.5.0"

/* The version as one number, for comparing versions: 0x000500. */
#define BPLIST_VERSION_NUM (BPLIST_VERSION_MAJOR << 16 | BPLIST_VERSION_MINOR << 8 | BPLIST_VERSION_PATCH)

/* The status that a call returns. Compilers that can, warn if a program ignores it; not for
   bplist_close, which frees everything in each case. */
typedef uint32_t bplist_status;

#if defined(__GNUC__)
#define BPLIST_LOOK_AT __attribute__((__warn_unused_result__))
#else
#define BPLIST_LOOK_AT
#endif

enum {
    /* The answer is in the outputs. */
    BPLIST_OK = 0,
    /* The file or the certificate breaks a rule. The verdict says which one. */
    BPLIST_FAULT = 1,
    /* Memory was refused. There is no answer, nothing is lost, and the call can be
       repeated. */
    BPLIST_MEMORY = 2,
    /* The handle is closed. */
    BPLIST_CLOSED = 3,
    /* The handle to open is already open. */
    BPLIST_OPENED = 4,
    /* The file has changed, or is not the one that was opened. */
    BPLIST_OTHER_FILE = 5,
    /* The file has no checked object with that number. bplist_open checks the objects that
       are reachable from the top, and bplist_open_certified those that the certificate
       gives a height. */
    BPLIST_NO_OBJECT = 6,
    /* The object is not of the kind that the call needs. */
    BPLIST_OTHER_KIND = 7,
    /* The object has no such member. */
    BPLIST_NO_MEMBER = 8,
    /* A step of a path: the dictionary has no such key. */
    BPLIST_NO_KEY = 9,
    /* A step of a path: the step is not an index of the array. */
    BPLIST_NO_INDEX = 10,
    /* A step of a path: the value is neither a dictionary nor an array. */
    BPLIST_NOT_STEPPABLE = 11,
    /* The path is not a JSON Pointer. */
    BPLIST_PATH_TEXT = 12,
    /* The path is not UTF-8. */
    BPLIST_NOT_UTF8 = 13,
    /* The buffer is too short. The length that is needed is in the outputs. */
    BPLIST_SHORT = 14,
    /* The value has no old-style text: a part of it is neither data, text, array nor
       dictionary. */
    BPLIST_NO_TEXT = 15,
    /* There is no rule with that number. */
    BPLIST_NO_RULE = 16,
    /* There is no status with that number. */
    BPLIST_NO_STATUS = 17,
    /* The text has no UTF-8, because a half of a surrogate pair stands alone in it. */
    BPLIST_UNPAIRED = 18
};

/* The kinds of objects. */
enum {
    BPLIST_NULL = 1,
    BPLIST_FALSE = 2,
    BPLIST_TRUE = 3,
    BPLIST_INT = 4,
    BPLIST_REAL = 5,  /* 4 or 8 bytes: an IEEE 754 number, big-endian */
    BPLIST_DATE = 6,  /* 8 bytes: such a number, in seconds since 2001-01-01 00:00:00 UTC */
    BPLIST_DATA = 7,  /* bytes */
    BPLIST_ASCII = 8, /* a text with one byte for each unit, each below 128 */
    BPLIST_WIDE = 9,  /* a text with two bytes for each unit: big-endian UTF-16 that may
                         contain unpaired surrogates */
    BPLIST_UID = 10,  /* a number, as NSKeyedArchiver writes it */
    BPLIST_ARRAY = 11,
    BPLIST_SET = 12,
    BPLIST_DICT = 13
};

/*
 * An open file: the results of checking its bytes, but not the bytes. {0} is a closed
 * handle. The members are private to the library.
 */
typedef struct bplist_handle {
    void *at;
    uint64_t length;
} bplist_handle;

/*
 * The verdict on a file. Members that are not described for a status are 0.
 *
 * BPLIST_OK: `objects` is the number of objects in the file's table, `top` the top
 * object, `top_kind` its kind and `height` its height, which is the number of objects
 * on the longest way down from it. (bplist_open_certified gives the height of the
 * certificate, which may be greater.) bplist_lint and bplist_open also set `reached`,
 * the number of objects reachable from the top, including the top, and `references`,
 * the number of references in these objects.
 *
 * BPLIST_FAULT: `rule` is the number of the first broken rule, 1 to 32. `has_object` is
 * 1 if an object breaks it, otherwise 0; `object` is that object. `place` is the place
 * of the fault: in the certificate for rules 24 to 27 and 32, otherwise in the file.
 * Rule 23 means that references form a circle. Then `has_object` is 1, `object` is the
 * first object of the circle, `circle` is the number of its objects, and bplist_circle
 * lists them; `place` is 0 and has no meaning.
 */
typedef struct bplist_verdict {
    uint32_t rule;
    uint32_t has_object;
    uint32_t object;
    uint32_t top;
    uint32_t top_kind;
    uint32_t height;
    uint64_t place;
    uint64_t circle;
    uint64_t objects;
    uint64_t reached;
    uint64_t references;
} bplist_verdict;

/* The object that a path leads to, or where the path fails. */
typedef struct bplist_found {
    /* The object that the path leads to. */
    uint32_t object;
    /* If the path leads nowhere: the number of the step that fails, counted from 0, or
       the place at which the path text is wrong. */
    uint64_t step;
} bplist_found;

/* The kind of an object, and its body. */
typedef struct bplist_body {
    /* BPLIST_NULL to BPLIST_DICT. */
    uint32_t kind;
    /* The number of units of a wide text, members of an array or a set, or pairs of a
       dictionary; 0 for null, false and true; the number of bytes for all others. */
    uint64_t count;
    /* The place of the body in the file. */
    uint64_t place;
    /* The length of the body in bytes. It ends within the file. */
    uint64_t length;
} bplist_body;

/* A 128-bit integer in two's complement, as its low and high half. It fits int64_t if
   `high` is 0 and `low` is below 2^63, or if `high` is 2^64 - 1 and `low` is at least
   2^63. */
typedef struct bplist_integer {
    uint64_t low;
    uint64_t high;
} bplist_integer;

/* The number of a real or a date: the bits of an IEEE 754 number, in the byte order of this
   machine. They are those of a float if `length` is 4, and of a double if it is 8. */
typedef struct bplist_bits {
    uint64_t bits;
    /* The number of bytes, 4 or 8. */
    uint32_t length;
} bplist_bits;

/* The size of a value. */
typedef struct bplist_sizes {
    /* The number of nodes of its tree, including the keys of dictionaries; 2^64 - 1 if it
       is that large or larger. */
    uint64_t nodes;
    /* The length of its old-style text in bytes; 2^64 - 1 if it is that long or longer;
       0 if the value has no such text. */
    uint64_t text;
    /* 1 if the value has an old-style text, otherwise 0. */
    uint32_t has_text;
} bplist_sizes;

/* The length of a text, or why there is none. */
typedef struct bplist_written {
    /* The length of the text in bytes. */
    uint64_t length;
    /* If the value has no text: the first object, in the order of writing, whose kind
       has none. */
    uint32_t object;
} bplist_written;

/*
 * Decides whether a file holds a value. Returns BPLIST_OK, BPLIST_FAULT or
 * BPLIST_MEMORY, and writes `out` in each case. If it returns BPLIST_FAULT, bplist_open
 * refuses the file too, and so does bplist_open_certified with any certificate. Takes
 * memory in proportion to the number of objects. BPLIST_OTHER_FILE: somebody has changed
 * the file during the call; `out` is all zeros. The two calls that open a file can return
 * it too, and the handle is then closed.
 */
bplist_status bplist_lint(const uint8_t *file, size_t length, bplist_verdict *out)
    BPLIST_LOOK_AT;

/*
 * Lists the objects of the circle for which bplist_lint refuses a file (rule 23). Each
 * refers to the next, and the last to the first. Writes them to the first `*count` of
 * the `room` elements at `objects`.
 *
 * BPLIST_SHORT: there are `*count` objects, more than `room`, and none was written.
 * BPLIST_FAULT: the file is refused for another rule. BPLIST_NO_RULE: it is not refused.
 * BPLIST_MEMORY. This call lints the file.
 */
bplist_status bplist_circle(const uint8_t *file, size_t length, uint32_t *objects, size_t room,
                            uint64_t *count)
    BPLIST_LOOK_AT;

/*
 * Writes what a file looks like that is no sound property list, for example "an XML
 * property list" or "1 byte too many after a trailer at 289": at most 200 bytes of ASCII,
 * written like a name by bplist_rule_name. It is a guess by a few bytes. The call reads
 * the first and the last 4,096 bytes, and more only where these are zeros alone.
 *
 * `*count` is 0 if that is not known, and for each file with a right header, trailer and
 * offset table. BPLIST_SHORT. BPLIST_MEMORY.
 */
bplist_status bplist_looks_like(const uint8_t *file, size_t length, char *words, size_t room,
                                uint64_t *count)
    BPLIST_LOOK_AT;

/*
 * Writes the name of a rule, 1 to 32, for example "Marker", to the first `*count` of
 * the `room` bytes at `name`. A name has at most 15 letters. No 0 byte follows it.
 *
 * BPLIST_SHORT: the name has `*count` letters, more than `room`, and none was written.
 * BPLIST_NO_RULE.
 */
bplist_status bplist_rule_name(uint32_t rule, char *name, size_t room, uint64_t *count)
    BPLIST_LOOK_AT;

/*
 * Writes what a rule, 1 to 32, requires of a file, for example "The keys of a dictionary
 * differ.": one sentence of at most 200 bytes of ASCII, written like a name by
 * bplist_rule_name. BPLIST_SHORT, BPLIST_NO_RULE.
 */
bplist_status bplist_rule_text(uint32_t rule, char *text, size_t room, uint64_t *count)
    BPLIST_LOOK_AT;

/*
 * Writes what a status means, for example "The handle is closed.": one sentence of at
 * most 200 bytes of ASCII, written like a name by bplist_rule_name. BPLIST_SHORT.
 * BPLIST_NO_STATUS: `status` is not one of BPLIST_OK to BPLIST_UNPAIRED.
 */
bplist_status bplist_status_text(bplist_status status, char *text, size_t room, uint64_t *count)
    BPLIST_LOOK_AT;

/* Returns the version of the library: BPLIST_VERSION_NUM of the header it was built with. */
uint32_t bplist_version(void);

/*
 * Lints a file, and opens it if it holds a value. With `sorted` the handle keeps the
 * keys of each dictionary in sorted order. Then bplist_find and bplist_find_key find a
 * key by binary search, instead of looking at every key.
 *
 * BPLIST_OK: the handle is open; close it with bplist_close. BPLIST_FAULT.
 * BPLIST_MEMORY. BPLIST_OPENED: the handle was already open, and is unchanged. Writes
 * `out` in each case.
 */
bplist_status bplist_open(bplist_handle *handle, const uint8_t *file, size_t length, bool sorted,
                          bplist_verdict *out)
    BPLIST_LOOK_AT;

/*
 * Opens a file with a certificate, as `bplint certify` or bplist_certificate writes it.
 * The certificate may come from anywhere: if it is not valid for this file, the call
 * returns BPLIST_FAULT. A certificate with sorted keys is kept as it is, even without
 * `sorted`. Otherwise this call works like bplist_open, but is faster and takes less
 * memory.
 */
bplist_status bplist_open_certified(bplist_handle *handle, const uint8_t *file, size_t length,
                                    const uint8_t *certificate, size_t certificate_length,
                                    bool sorted, bplist_verdict *out)
    BPLIST_LOOK_AT;

/*
 * Closes a handle and frees what it holds. The handle is then all zeros, and may be
 * opened again. BPLIST_CLOSED: it was already closed.
 */
bplist_status bplist_close(bplist_handle *handle);

/*
 * Writes the certificate with which the file of a handle can be opened again to the
 * first `*count` of the `room` bytes at `buffer`. Takes memory in proportion to the
 * length of the certificate.
 *
 * BPLIST_SHORT: the certificate has `*count` bytes, more than `room`, and none was
 * written. BPLIST_CLOSED. BPLIST_MEMORY.
 */
bplist_status bplist_certificate(bplist_handle *handle, uint8_t *buffer, size_t room,
                                 uint64_t *count)
    BPLIST_LOOK_AT;

/*
 * For the calls below, `handle` is open, and `file` of `length` bytes is the file that
 * it was opened with. Each call can return BPLIST_CLOSED or BPLIST_OTHER_FILE, and leaves
 * the handle unchanged. BPLIST_NO_OBJECT: the file has no checked object with that number.
 * A call whose description names no memory takes none.
 */

/*
 * Finds the object that a path leads to, starting at the top object. A path is a JSON
 * Pointer (RFC 6901) of `path_length` bytes of UTF-8. The empty path leads to the top.
 * Otherwise each step is a '/' and a key, or a '/' and an index of an array in decimal
 * digits. "~0" stands for '~', and "~1" for '/'. Takes memory in proportion to the length
 * of the path. In each dictionary it compares the key with all keys, one by one, up to the
 * one that it finds. If the handle has sorted keys, it compares with as many as the count
 * of the dictionary has binary digits. Reads at most 36 bytes for each step. In a
 * dictionary it reads at most 36 more, and 2 for each unit of the step, for each key, or
 * with sorted keys for each of those binary digits.
 *
 * BPLIST_OK: the object is `out->object`. BPLIST_NO_KEY, BPLIST_NO_INDEX,
 * BPLIST_NOT_STEPPABLE: step `out->step` fails. BPLIST_PATH_TEXT: the path text is wrong
 * at byte `out->step`. In these cases `out` is written, and its other member is 0.
 * BPLIST_NOT_UTF8. BPLIST_MEMORY.
 */
bplist_status bplist_find(bplist_handle *handle, const uint8_t *file, size_t length,
                          const char *path, size_t path_length, bplist_found *out)
    BPLIST_LOOK_AT;

/*
 * Takes one step from an object. For a dictionary the step is a key: `count` UTF-16
 * units at `units`, which may be any units. For an array it is an index in decimal digits.
 * Compares as many keys as bplist_find, and reads as many bytes.
 *
 * BPLIST_OK: `*out` is the object of the value or member. BPLIST_NO_KEY, BPLIST_NO_INDEX,
 * BPLIST_NOT_STEPPABLE, BPLIST_NO_OBJECT.
 */
bplist_status bplist_find_key(bplist_handle *handle, const uint8_t *file, size_t length,
                              uint32_t object, const uint16_t *units, size_t count,
                              uint32_t *out)
    BPLIST_LOOK_AT;

/*
 * Takes one step from an object, by a key of `key_length` bytes of UTF-8. Otherwise this
 * call works like bplist_find_key. Takes memory in proportion to the length of the key.
 *
 * BPLIST_NOT_UTF8. BPLIST_MEMORY. BPLIST_NO_KEY, BPLIST_NO_INDEX, BPLIST_NOT_STEPPABLE, BPLIST_NO_OBJECT.
 */
bplist_status bplist_find_utf8(bplist_handle *handle, const uint8_t *file, size_t length,
                               uint32_t object, const char *key, size_t key_length, uint32_t *out)
    BPLIST_LOOK_AT;

/*
 * Gives the kind of an object, and the count, place and length of its body. The bytes of
 * a real, a date, data or a text are in the file from `place` on. BPLIST_NO_OBJECT.
 */
bplist_status bplist_face(bplist_handle *handle, const uint8_t *file, size_t length,
                          uint32_t object, bplist_body *out)
    BPLIST_LOOK_AT;

/*
 * Gives the same of each of `object_count` objects: body k is that of object k. Writes as
 * many as there are and as fit to the first `*count` of the `room` elements at `bodies`,
 * and leaves the other elements unchanged. The members of a body are all 0 if the file has
 * no checked object with that number. With bplist_members, a caller walks a tree with two
 * calls for each block of members.
 */
bplist_status bplist_faces(bplist_handle *handle, const uint8_t *file, size_t length,
                           const uint32_t *objects, size_t object_count, bplist_body *bodies,
                           size_t room, uint64_t *count)
    BPLIST_LOOK_AT;

/* Gives the value of a BPLIST_INT. BPLIST_OTHER_KIND, BPLIST_NO_OBJECT. */
bplist_status bplist_int(bplist_handle *handle, const uint8_t *file, size_t length,
                         uint32_t object, bplist_integer *out)
    BPLIST_LOOK_AT;

/*
 * Gives the number of a BPLIST_REAL or a BPLIST_DATE. BPLIST_OTHER_KIND, BPLIST_NO_OBJECT.
 * These lines make a double of it:
 *
 *     if (number.length == 4) {
 *         uint32_t few = (uint32_t)number.bits;
 *         float single;
 *         memcpy(&single, &few, sizeof single);
 *         value = single;
 *     } else {
 *         memcpy(&value, &number.bits, sizeof value);
 *     }
 */
bplist_status bplist_number(bplist_handle *handle, const uint8_t *file, size_t length,
                            uint32_t object, bplist_bits *out)
    BPLIST_LOOK_AT;

/* Gives the value of a BPLIST_UID. BPLIST_OTHER_KIND, BPLIST_NO_OBJECT. */
bplist_status bplist_uid(bplist_handle *handle, const uint8_t *file, size_t length,
                         uint32_t object, uint32_t *out)
    BPLIST_LOOK_AT;

/*
 * Gives the object of member `i`, counted from 0. Members of an array or a set are in the
 * order of the file. In a dictionary, member 2 * j is key j and member 2 * j + 1 is value
 * j, in the order of the file.
 *
 * BPLIST_NO_MEMBER: `i` is not below the number of members, which is twice the number of
 * pairs for a dictionary, and 0 for all kinds but arrays, sets and dictionaries.
 * BPLIST_NO_OBJECT.
 */
bplist_status bplist_member(bplist_handle *handle, const uint8_t *file, size_t length,
                            uint32_t object, uint64_t i, uint32_t *out)
    BPLIST_LOOK_AT;

/*
 * Gives the objects of the members from number `from` on, in the order of bplist_member.
 * Writes as many as there are and as fit to the first `*count` of the `room` elements at
 * `objects`, and leaves the other elements unchanged. `*count` is 0 if `from` is not
 * below the number of members, and for all kinds that have none. BPLIST_NO_OBJECT.
 */
bplist_status bplist_members(bplist_handle *handle, const uint8_t *file, size_t length,
                             uint32_t object, uint64_t from, uint32_t *objects, size_t room,
                             uint64_t *count)
    BPLIST_LOOK_AT;

/*
 * Reads the bytes of an object's body from byte `from` on, as they are in the file.
 * Writes as many as there are and as fit to the first `*count` of the `room` bytes at
 * `bytes`. `*count` is 0 if `from` is not below the length of the body. BPLIST_NO_OBJECT.
 */
bplist_status bplist_read(bplist_handle *handle, const uint8_t *file, size_t length,
                          uint32_t object, uint64_t from, uint8_t *bytes, size_t room,
                          uint64_t *count)
    BPLIST_LOOK_AT;

/*
 * Reads the units of a text, a BPLIST_ASCII or a BPLIST_WIDE, from unit `from` on, in the
 * byte order of this machine. Writes as many as there are and as fit to the first
 * `*count` of the `room` elements at `units`. BPLIST_OTHER_KIND, BPLIST_NO_OBJECT.
 */
bplist_status bplist_units(bplist_handle *handle, const uint8_t *file, size_t length,
                           uint32_t object, uint64_t from, uint16_t *units, size_t room,
                           uint64_t *count)
    BPLIST_LOOK_AT;

/*
 * Writes a text, a BPLIST_ASCII or a BPLIST_WIDE, as UTF-8 to the first `*count` of the
 * `room` bytes at `buffer`. No 0 byte follows it. Takes memory in proportion to the length
 * of the text.
 *
 * BPLIST_SHORT: the UTF-8 has `*count` bytes, more than `room`, and none was written.
 * BPLIST_UNPAIRED: a half of a surrogate pair stands alone in the text; bplist_units reads
 * it. BPLIST_MEMORY. BPLIST_OTHER_KIND, BPLIST_NO_OBJECT.
 */
bplist_status bplist_utf8(bplist_handle *handle, const uint8_t *file, size_t length,
                          uint32_t object, char *buffer, size_t room, uint64_t *count)
    BPLIST_LOOK_AT;

/*
 * Measures the value of an object. Looks at every object of the file once, and takes
 * memory in proportion to their number. Reads at most 28 bytes for each object, and as
 * many bytes as lie before the offset table. BPLIST_NO_OBJECT. BPLIST_MEMORY.
 */
bplist_status bplist_size(bplist_handle *handle, const uint8_t *file, size_t length,
                          uint32_t object, bplist_sizes *out)
    BPLIST_LOOK_AT;

/*
 * Writes the old-style text of the value of an object to the first `out->length` of the
 * `room` bytes at `buffer`. The text is ASCII, and no 0 byte follows it.
 *
 * BPLIST_SHORT: the text has `out->length` bytes (2^64 - 1 if it has that many or more),
 * more than `room`, and none was written. BPLIST_NO_TEXT: the kind of `out->object` has no
 * text, and nothing was written to `buffer`. With BPLIST_OK and in these cases `out` is
 * written, and a member that is not described is 0. BPLIST_MEMORY. BPLIST_NO_OBJECT.
 *
 * Takes the time and memory of bplist_size. It also takes memory in proportion to the
 * depth of the value and, if the text fits, to its length. Of a value that has a text it
 * reads at most 36 bytes more than bplist_size, and 40 for each byte of a text that fits.
 * Of any other value it reads at most 36 bytes more for each object, and 8 for each byte
 * before the offset table.
 */
bplist_status bplist_text(bplist_handle *handle, const uint8_t *file, size_t length,
                          uint32_t object, char *buffer, size_t room, bplist_written *out)
    BPLIST_LOOK_AT;

#ifdef __cplusplus
}
#endif

#endif
