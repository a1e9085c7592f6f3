/* Files, for the examples: the library is given bytes. */
#ifndef FILE_H
#define FILE_H

#include <stdbool.h>
#include <stddef.h>
#include <stdint.h>
#include <stdio.h>
#include <stdlib.h>
#include <string.h>

/* The bytes of a file, which the caller frees, or NULL where it can't be read. */
static uint8_t *bytes_of(const char *path, size_t *length) {
    FILE *file = fopen(path, "rb");
    uint8_t *bytes = NULL;
    long end = -1;
    if (file != NULL && fseek(file, 0, SEEK_END) == 0 && (end = ftell(file)) >= 0 && end < INT32_MAX) {
        bytes = malloc((size_t)end + 1);
        rewind(file);
    }
    *length = bytes != NULL ? fread(bytes, 1, (size_t)end, file) : 0;
    if (bytes != NULL && *length != (size_t)end) {
        free(bytes);
        bytes = NULL;
    }
    if (file != NULL) {
        fclose(file);
    }
    return bytes;
}

/* Whether a journal lies beside a file that isn't empty, so that its last changes may not be in it. */
static inline bool has_journal(const char *path) {
    static const char *const ends[] = {"-journal", "-wal"};
    for (size_t i = 0; i < 2; i++) {
        char *beside = malloc(strlen(path) + strlen(ends[i]) + 1);
        FILE *file = beside != NULL ? fopen(strcat(strcpy(beside, path), ends[i]), "rb") : NULL;
        bool is_hot = file != NULL && fgetc(file) != EOF;
        if (file != NULL) {
            fclose(file);
        }
        free(beside);
        if (is_hot) {
            return true;
        }
    }
    return false;
}

#endif
