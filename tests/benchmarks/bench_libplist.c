/* Reads a binary property list whole and parses it by libplist. */
#include "bench_reading.h"

#include <inttypes.h>
#include <plist/plist.h>
#include <stdio.h>
#include <stdlib.h>
#include <string.h>

static plist_t parse(const char *name)
{
    plist_t value = NULL;
    FILE *file = fopen(name, "rb");
    char *bytes;
    long length;

    if (!file)
        return NULL;
    fseek(file, 0, SEEK_END);
    length = ftell(file);
    rewind(file);
    bytes = malloc(length > 0 ? length : 1);
    if (bytes && fread(bytes, 1, length, file) == (size_t)length)
        plist_from_bin(bytes, (uint32_t)length, &value);
    free(bytes);
    fclose(file);
    return value;
}

static int print_value(plist_t value, char *path)
{
    uint64_t number;
    char *text;

    for (char *step = strtok(path, "/"); value && step; step = strtok(NULL, "/"))
        value = plist_get_node_type(value) == PLIST_DICT ? plist_dict_get_item(value, step)
                                                         : plist_array_get_item(value, (uint32_t)atoi(step));
    if (!value)
        return 1;
    if (plist_get_node_type(value) == PLIST_STRING) {
        plist_get_string_val(value, &text);
        printf("%s\n", text);
        free(text);
    } else {
        plist_get_uint_val(value, &number);
        printf("%" PRIu64 "\n", number);
    }
    return 0;
}

int read_values(const char *name, char **paths, int count)
{
    plist_t top = parse(name);
    int failed = top == NULL;

    for (int i = 0; i < count && !failed; i++)
        failed = print_value(top, paths[i]);
    return failed;
}
