/* Prints the rows that a SELECT answers over a database file: rows IMAGE SQL. */
#include "../include/seleq.h"
#include "file.h"
#include <inttypes.h>

static void print_value(const seleq_value *value) {
    if (value->kind == SELEQ_NULL) {
        printf("NULL");
    } else if (value->kind == SELEQ_INTEGER) {
        printf("%" PRId64, value->number);
    } else {
        printf(value->kind == SELEQ_TEXT ? "'" : "X'");
        for (size_t i = 0; i < value->length; i++) {
            if (value->kind == SELEQ_BLOB) {
                printf("%02X", value->at[i]);
            } else {
                printf(value->at[i] == '\'' ? "''" : "%c", value->at[i]);
            }
        }
        printf("'");
    }
}

int main(int argc, char **argv) {
    seleq_image image = SELEQ_CLOSED;
    seleq_value value = SELEQ_NO_VALUE, name = SELEQ_NO_VALUE;
    size_t count = 0, length = 0;
    uint8_t *bytes = argc == 3 ? bytes_of(argv[1], &length) : NULL;
    if (bytes == NULL) {
        return 2;
    }
    uint8_t status = seleq_open(&image, bytes, length, 256);
    free(bytes);
    status = status != 0 ? status : seleq_start(&image, 0, (const uint8_t *)argv[2], strlen(argv[2]));
    while (status == 0 && (status = seleq_step(&image, 0)) == 0) {
        seleq_columns(&image, 0, &count);
        for (size_t column = 0; column < count; column++) {
            seleq_column(&image, 0, column, &value);
            print_value(&value);
            putchar(column + 1 < count ? ',' : '\n');
        }
    }
    if (status != SELEQ_END) {
        seleq_fault(&image, &name, &value);
        fprintf(stderr, "fault %u: %.*s\n", status, (int)name.length, name.at);
    }
    seleq_close(&image);
    return status != SELEQ_END;
}
