/* read_libplist FILE [parse]: reads FILE with libplist and prints its value as plist_value.py spells it, or nothing if
   the word `parse` is given.
   The exit status is 1 if the library refuses the file. */
#include <inttypes.h>
#include <plist/plist.h>
#include <stdio.h>
#include <stdlib.h>
#include <string.h>

enum { NODES = 4000, DEPTH = 200, ROOM = 1 << 26 };

static int nodes;
static char *out;
static size_t length;

static void put(const char *text) {
    size_t more = strlen(text);
    if (length + more >= ROOM) exit(3);
    memcpy(out + length, text, more + 1);
    length += more;
}

static void put_hex(const unsigned char *octets, size_t count) {
    char digits[3];
    for (size_t i = 0; i < count; i++) {
        snprintf(digits, sizeof digits, "%02x", octets[i]);
        put(digits);
    }
}

/* 2.2 gives every integer as unsigned; which sign was meant shows in its XML alone. */
static void put_integer(plist_t node) {
    uint64_t value;
    char number[32];
    plist_get_uint_val(node, &value);
    if (value >> 63) {
        char *xml = NULL, *at;
        uint32_t size;
        plist_t copy = plist_copy(node);
        plist_to_xml(copy, &xml, &size);
        at = xml ? strstr(xml, "<integer>") : NULL;
        if (at && at[9] == '-') {
            snprintf(number, sizeof number, "%" PRId64, (int64_t)value);
            put(number);
            return;
        }
    }
    snprintf(number, sizeof number, "%" PRIu64, value);
    put(number);
}

static void put_real(double value) {
    uint64_t bits;
    char number[20];
    memcpy(&bits, &value, sizeof bits);
    if (value != value) {
        put("nan");
        return;
    }
    snprintf(number, sizeof number, "%016" PRIx64, bits);
    put(number);
}

static void put_date(plist_t node) {
    int32_t seconds, micros;
    char number[20];
    plist_get_date_val(node, &seconds, &micros);
    snprintf(number, sizeof number, "%" PRId32, seconds - (micros < 0));
    put(number);
}

static void put_text(const char *text) {
    put("text ");
    put_hex((const unsigned char *)text, text ? strlen(text) : 0);
}

static void large(void) {
    puts("large");
    exit(0);
}

static int by_text(const void *a, const void *b) { return strcmp(*(char *const *)a, *(char *const *)b); }

static void put_value(plist_t node, int depth);

/* The pairs of a dictionary in the order of their spelling. */
static void put_pairs(plist_t node, int depth) {
    uint32_t size = plist_dict_get_size(node), count = 0;
    char **pairs = malloc((size + 1) * sizeof *pairs);
    size_t from = length;
    plist_dict_iter iter = NULL;
    plist_dict_new_iter(node, &iter);
    for (;;) {
        char *key = NULL;
        plist_t value = NULL;
        plist_dict_next_item(node, iter, &key, &value);
        if (!value || count >= size) break;
        put_hex((unsigned char *)key, strlen(key));
        put("=");
        put_value(value, depth + 1);
        pairs[count++] = strdup(out + from);
        length = from;
        free(key);
    }
    qsort(pairs, count, sizeof *pairs, by_text);
    for (uint32_t i = 0; i < count; i++) {
        put(i ? "," : "");
        put(pairs[i]);
    }
}

static void put_value(plist_t node, int depth) {
    char *text = NULL;
    uint64_t size = 0;
    uint8_t yes = 0;
    double real = 0;
    char number[32];
    if (++nodes > NODES || depth > DEPTH) large();
    switch (plist_get_node_type(node)) {
    case PLIST_BOOLEAN: plist_get_bool_val(node, &yes); put(yes ? "true" : "false"); break;
    case PLIST_UINT: put("int "); put_integer(node); break;
    case PLIST_REAL: plist_get_real_val(node, &real); put("real "); put_real(real); break;
    case PLIST_DATE: put("date "); put_date(node); break;
    case PLIST_UID:
        plist_get_uid_val(node, &size);
        snprintf(number, sizeof number, "uid %" PRIu64, size);
        put(number);
        break;
    case PLIST_DATA: plist_get_data_val(node, &text, &size); put("data "); put_hex((unsigned char *)text, size); break;
    case PLIST_STRING: plist_get_string_val(node, &text); put_text(text); break;
    case PLIST_KEY: plist_get_key_val(node, &text); put_text(text); break;
    case PLIST_ARRAY:
        put("array(");
        for (uint32_t i = 0; i < plist_array_get_size(node); i++) {
            put(i ? "," : "");
            put_value(plist_array_get_item(node, i), depth + 1);
        }
        put(")");
        break;
    case PLIST_DICT: put("dict("); put_pairs(node, depth); put(")"); break;
    default: put("null");
    }
}

int main(int count, char **words) {
    FILE *file = count >= 2 ? fopen(words[1], "rb") : NULL;
    plist_t top = NULL;
    if (!file) return 3;
    fseek(file, 0, SEEK_END);
    long size = ftell(file);
    rewind(file);
    char *octets = malloc(size + 1);
    if (fread(octets, 1, size, file) != (size_t)size) return 3;
    plist_from_bin(octets, size, &top);
    if (!top) {
        fputs("no plist\n", stderr);
        return 1;
    }
    if (count == 2) {
        out = malloc(ROOM);
        put_value(top, 0);
        puts(out);
        fflush(stdout);
    }
    plist_free(top);
    return 0;
}
