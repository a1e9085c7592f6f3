/* Prints of each file of a list whether it is sound: `ok`, or why it isn't. */
#include "../include/seleq.h"
#include "file.h"
#include <inttypes.h>

static void print_fault(seleq_image *image, uint8_t status) {
    seleq_value name = SELEQ_NO_VALUE, carried = SELEQ_NO_VALUE;
    if (seleq_fault(image, &name, &carried) == SELEQ_NOT_OPEN) {
        printf("fault %u\n", status);
        return;
    }
    printf("fault %u: %.*s", status, (int)name.length, name.at);
    if (carried.kind == SELEQ_INTEGER) {
        printf(" %" PRId64, carried.number);
    } else if (carried.kind == SELEQ_TEXT) {
        printf(" %.*s", (int)carried.length, carried.at);
    }
    putchar('\n');
}

/* Prints the line of a file. */
static bool is_sound(const char *path) {
    seleq_image image = SELEQ_CLOSED;
    size_t length = 0;
    uint8_t *bytes = bytes_of(path, &length);
    bool is_read = bytes != NULL && !has_journal(path);
    uint8_t status = is_read ? seleq_open(&image, bytes, length, 256) : 1;
    printf("%s: ", path);
    if (!is_read) {
        printf(bytes == NULL ? "it can't be read\n" : "a journal lies beside it\n");
    } else if (status == 0) {
        printf("ok\n");
    } else {
        print_fault(&image, status);
    }
    seleq_close(&image);
    free(bytes);
    return status == 0;
}

int main(int argc, char **argv) {
    int refused = 0;
    for (int i = 1; i < argc; i++) {
        refused |= !is_sound(argv[i]);
    }
    return refused;
}
