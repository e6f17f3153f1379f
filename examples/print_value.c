/*
 * print_value FILE [PATH]: prints the value at PATH (a JSON Pointer) in a binary property list, or why the file
 * holds no value. For a container it prints the kind and the number of members.
 *
 *     cc -o print_value print_value.c $(pkg-config --cflags --libs bplist)
 */
#include <bplist.h>

#include <inttypes.h>
#include <stdio.h>
#include <stdlib.h>
#include <string.h>

struct file {
    uint8_t *bytes;
    size_t length;
};

static bool read_file(const char *name, struct file *file)
{
    FILE *in = fopen(name, "rb");
    long end;
    bool whole;

    if (in == NULL)
        return false;
    if (fseek(in, 0, SEEK_END) != 0 || (end = ftell(in)) < 0 || fseek(in, 0, SEEK_SET) != 0) {
        fclose(in);
        return false;
    }
    file->length = (size_t)end;
    file->bytes = malloc(file->length + 1);
    whole = file->bytes != NULL && fread(file->bytes, 1, file->length, in) == file->length;
    fclose(in);
    return whole;
}

static int refuse(const char *name, bplist_status status, const bplist_verdict *verdict)
{
    char rule[16] = {0};
    char text[201] = {0};
    uint64_t count;

    if (status != BPLIST_FAULT) {
        if (bplist_status_text(status, text, sizeof text - 1, &count) == BPLIST_OK)
            fprintf(stderr, "%s: %s\n", name, text);
        return 4;
    }
    if (bplist_rule_name(verdict->rule, rule, sizeof rule - 1, &count) != BPLIST_OK
        || bplist_rule_text(verdict->rule, text, sizeof text - 1, &count) != BPLIST_OK)
        return 4;
    fprintf(stderr, "%s: breaks rule %" PRIu32 " (%s)", name, verdict->rule, rule);
    if (verdict->has_object)
        fprintf(stderr, " at object %" PRIu32, verdict->object);
    if (verdict->circle == 0)
        fprintf(stderr, ", place %" PRIu64, verdict->place);
    fprintf(stderr, ": %s\n", text);
    return 1;
}

static void print_hex(const uint8_t *bytes, uint64_t length)
{
    for (uint64_t i = 0; i < length; i++)
        printf("%02x", bytes[i]);
}

/* Gives the number of a real or a date. */
static bool get_number(bplist_handle *handle, const struct file *file, uint32_t object, double *value)
{
    bplist_bits number;
    uint32_t few;
    float single;

    if (bplist_number(handle, file->bytes, file->length, object, &number) != BPLIST_OK)
        return false;
    if (number.length == 4) {
        few = (uint32_t)number.bits;
        memcpy(&single, &few, sizeof single);
        *value = single;
    } else {
        memcpy(value, &number.bits, sizeof *value);
    }
    return true;
}

/* Prints a text as UTF-8. */
static bool print_text(bplist_handle *handle, const struct file *file, uint32_t object, uint64_t units)
{
    /* A unit has at most three bytes of UTF-8. */
    size_t room = 3 * (size_t)units;
    uint64_t count;
    char *text = malloc(room + 1);
    bplist_status status = BPLIST_MEMORY;

    if (text != NULL)
        status = bplist_utf8(handle, file->bytes, file->length, object, text, room, &count);
    if (status == BPLIST_OK)
        fwrite(text, 1, (size_t)count, stdout);
    else if (status == BPLIST_UNPAIRED)
        fputs("a text with a half of a surrogate pair", stdout);
    free(text);
    return status == BPLIST_OK || status == BPLIST_UNPAIRED;
}

static bool print_value(bplist_handle *handle, const struct file *file, uint32_t object)
{
    bplist_body body;
    bplist_integer number;
    uint32_t uid;
    double value;

    if (bplist_face(handle, file->bytes, file->length, object, &body) != BPLIST_OK)
        return false;
    switch (body.kind) {
    case BPLIST_NULL:
        fputs("null", stdout);
        break;
    case BPLIST_FALSE:
        fputs("false", stdout);
        break;
    case BPLIST_TRUE:
        fputs("true", stdout);
        break;
    case BPLIST_INT:
        if (bplist_int(handle, file->bytes, file->length, object, &number) != BPLIST_OK)
            return false;
        if (number.high == 0)
            printf("%" PRIu64, number.low);
        else if (number.high == UINT64_MAX && number.low >> 63 == 1)
            printf("%" PRId64, (int64_t)number.low);
        else
            printf("0x%016" PRIx64 "%016" PRIx64, number.high, number.low);
        break;
    case BPLIST_REAL:
    case BPLIST_DATE:
        if (!get_number(handle, file, object, &value))
            return false;
        printf("%.17g%s", value, body.kind == BPLIST_DATE ? " seconds after 2001-01-01 00:00:00 UTC" : "");
        break;
    case BPLIST_DATA:
        print_hex(file->bytes + body.place, body.length);
        break;
    case BPLIST_ASCII:
    case BPLIST_WIDE:
        if (!print_text(handle, file, object, body.count))
            return false;
        break;
    case BPLIST_UID:
        if (bplist_uid(handle, file->bytes, file->length, object, &uid) != BPLIST_OK)
            return false;
        printf("uid %" PRIu32, uid);
        break;
    case BPLIST_ARRAY:
        printf("array of %" PRIu64, body.count);
        break;
    case BPLIST_SET:
        printf("set of %" PRIu64, body.count);
        break;
    default:
        printf("dictionary of %" PRIu64, body.count);
        break;
    }
    putchar('\n');
    return true;
}

int main(int argc, char **argv)
{
    struct file file;
    bplist_handle handle = {0};
    bplist_verdict verdict;
    bplist_found found;
    bplist_status status;
    const char *path = argc > 2 ? argv[2] : "";
    int answer = 0;

    if (argc < 2 || argc > 3) {
        fputs("usage: print_value FILE [PATH]\n", stderr);
        return 2;
    }
    if (!read_file(argv[1], &file)) {
        perror(argv[1]);
        return 3;
    }
    status = bplist_open(&handle, file.bytes, file.length, false, &verdict);
    if (status != BPLIST_OK) {
        free(file.bytes);
        return refuse(argv[1], status, &verdict);
    }
    status = bplist_find(&handle, file.bytes, file.length, path, strlen(path), &found);
    if (status == BPLIST_OK) {
        answer = print_value(&handle, &file, found.object) ? 0 : 4;
    } else if (status >= BPLIST_NO_KEY && status <= BPLIST_NOT_STEPPABLE) {
        fprintf(stderr, "%s: no value at step %" PRIu64 " of %s\n", argv[1], found.step, path);
        answer = 1;
    } else {
        fprintf(stderr, "%s: %s\n", path, status == BPLIST_MEMORY ? "out of memory" : "not a path");
        answer = status == BPLIST_MEMORY ? 4 : 2;
    }
    bplist_close(&handle);
    free(file.bytes);
    return answer;
}
