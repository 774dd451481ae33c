/* check TYPE FILE [BOUNDS [INDEX]]: how many rows the store has, or the row with this index, or what is wrong. The status is what the
 * call answers, 9 where the file can't be read.
 *
 *     cc check.c libcolumnar_c.a liblibc_c.a */
#include <inttypes.h>
#include <stdio.h>
#include <stdlib.h>
#include <string.h>

#include "../columnar.h"

/* The whole file, with a byte more of room, so that no bytes have an address too; NULL where it can't be read. */
static uint8_t *read_file(const char *path, size_t *length) {
    FILE *file = fopen(path, "rb");
    if (!file)
        return NULL;
    uint8_t *bytes = NULL;
    if (fseek(file, 0, SEEK_END) == 0) {
        long size = ftell(file);
        rewind(file);
        bytes = size < 0 ? NULL : malloc((size_t)size + 1);
        *length = bytes ? fread(bytes, 1, (size_t)size, file) : 0;
        if (bytes && *length != (size_t)size) {
            free(bytes);
            bytes = NULL;
        }
    }
    fclose(file);
    return bytes;
}

/* Prints the row with this index; answers what the call answers. */
static uint32_t print_row(const char *type, uint32_t bounds, const uint8_t *bytes, size_t length, uint64_t index,
                          struct columnar_fault *fault) {
    uint8_t small[16], *text = small;
    uint64_t size;
    uint32_t answer = columnar_row_json((const uint8_t *)type, strlen(type), bounds, bytes, length, index, small, sizeof small, &size, fault);
    if (answer == COLUMNAR_NO_ROOM) {
        text = malloc(size);
        if (!text)
            return COLUMNAR_NO_MEMORY;
        answer = columnar_row_json((const uint8_t *)type, strlen(type), bounds, bytes, length, index, text, size, &size, fault);
    }
    if (answer == COLUMNAR_ACCEPTED)
        printf("%.*s\n", (int)size, (const char *)text);
    if (text != small)
        free(text);
    return answer;
}

/* Prints the number of rows; answers what the call answers. */
static uint32_t print_rows(const char *type, uint32_t bounds, const uint8_t *bytes, size_t length, struct columnar_fault *fault) {
    uint64_t rows;
    uint32_t answer = columnar_rows((const uint8_t *)type, strlen(type), bounds, bytes, length, &rows, fault);
    if (answer == COLUMNAR_ACCEPTED)
        printf("%" PRIu64 " rows\n", rows);
    return answer;
}

int main(int argc, char **argv) {
    if (argc < 3 || argc > 5) {
        fprintf(stderr, "usage: check TYPE FILE [BOUNDS [INDEX]]\n");
        return 9;
    }
    size_t length;
    uint8_t *bytes = read_file(argv[2], &length);
    if (!bytes) {
        fprintf(stderr, "failed: cannot read\n");
        return 9;
    }
    uint32_t bounds = argc > 3 ? (uint32_t)strtoul(argv[3], NULL, 10) : COLUMNAR_WORDS;
    struct columnar_fault fault;
    uint32_t answer = argc == 5 ? print_row(argv[1], bounds, bytes, length, strtoull(argv[4], NULL, 10), &fault)
                                : print_rows(argv[1], bounds, bytes, length, &fault);
    switch (answer) {
    case COLUMNAR_ACCEPTED:
        break;
    case COLUMNAR_BROKEN:
        printf("rule %" PRIu32 " in slice %" PRIu64 "\n", fault.rule, fault.slice);
        break;
    case COLUMNAR_NO_TYPE:
        printf("not a type: mistake %" PRIu32 " at %" PRIu64 "\n", fault.mistake, fault.place);
        break;
    case COLUMNAR_NO_MEMORY:
        printf("no memory\n");
        break;
    case COLUMNAR_NO_BOUNDS:
        printf("no bounds\n");
        break;
    case COLUMNAR_NO_ROW:
        printf("no such row\n");
        break;
    case COLUMNAR_WRONG_LENGTH:
        printf("an array has another length\n");
        break;
    default:
        printf("a string has no text\n");
    }
    free(bytes);
    return (int)answer;
}
