/* Calls the library out of order, in sixteen slots by turns, and with memory refused. Linked with --wrap of malloc, realloc and
   free, so that each allocation is counted and may be refused.

       handles order IMAGE            each call's answer is the one written beside it; a line for each that differs
       handles turns IMAGE SQL ..     each statement in a slot of its own, a row of each by turns: lines of the slot, a tab and a row
       handles refused IMAGE SQL      each allocation refused, alone and with all that follow: a line of how many there were */
#include "../include/seleq.h"
#include <inttypes.h>
#include <stdio.h>
#include <stdlib.h>
#include <string.h>

#define NO_MEMORY 28

void *__real_malloc(size_t size);
void *__real_realloc(void *old, size_t size);
void __real_free(void *block);

static long asked, refused_at, held;
static bool refuses_all;

static bool is_refused(void) {
    asked++;
    return refused_at != 0 && (asked == refused_at || (refuses_all && asked > refused_at));
}

void *__wrap_malloc(size_t size) {
    void *block = is_refused() ? NULL : __real_malloc(size);
    held += block != NULL;
    return block;
}

void *__wrap_realloc(void *old, size_t size) {
    void *block = is_refused() ? NULL : __real_realloc(old, size);
    held += old == NULL && block != NULL;
    return block;
}

void __wrap_free(void *block) {
    held -= block != NULL;
    __real_free(block);
}

static int problems;

static void expect(const char *what, long got, long wanted) {
    if (got != wanted) {
        printf("%s: %ld, wanted %ld\n", what, got, wanted);
        problems++;
    }
}

/* The bytes of a file, by the C library's own memory. */
static uint8_t *bytes_of(const char *path, size_t *length) {
    FILE *file = fopen(path, "rb");
    if (file == NULL || fseek(file, 0, SEEK_END) != 0) {
        exit(2);
    }
    *length = (size_t)ftell(file);
    uint8_t *bytes = __real_malloc(*length + 1);
    rewind(file);
    if (bytes == NULL || fread(bytes, 1, *length, file) != *length) {
        exit(2);
    }
    fclose(file);
    return bytes;
}

static uint8_t start(seleq_image *image, uint8_t slot, const char *sql) {
    return seleq_start(image, slot, (const uint8_t *)sql, strlen(sql));
}

static bool is_text(const seleq_value *value, const char *text) {
    return value->kind == SELEQ_TEXT && value->length == strlen(text) && memcmp(value->at, text, value->length) == 0;
}

/* A closed image answers so, and nothing is written. */
static void try_closed(seleq_image *image) {
    seleq_value value = SELEQ_NO_VALUE, other = SELEQ_NO_VALUE;
    size_t count = 7;
    expect("start, closed", start(image, 0, "SELECT 1"), SELEQ_NOT_OPEN);
    expect("step, closed", seleq_step(image, 0), SELEQ_NOT_OPEN);
    expect("end, closed", seleq_end(image, 0), SELEQ_NOT_OPEN);
    expect("columns, closed", seleq_columns(image, 0, &count), SELEQ_NOT_OPEN);
    expect("the count, closed", (long)count, 7);
    expect("name, closed", seleq_name(image, 0, 0, &value), SELEQ_NOT_OPEN);
    expect("column, closed", seleq_column(image, 0, 0, &value), SELEQ_NOT_OPEN);
    expect("fault, closed", seleq_fault(image, &value, &other), SELEQ_NOT_OPEN);
    expect("a value, closed", value.kind + other.kind, SELEQ_NULL);
    seleq_close(image);
    expect("closed", image->live || image->at != NULL, false);
}

/* An image that was refused keeps its fault. */
static void try_refused(void) {
    seleq_image image = SELEQ_CLOSED;
    seleq_value name = SELEQ_NO_VALUE, carried = SELEQ_NO_VALUE;
    expect("open 0 bytes", seleq_open(&image, (const uint8_t *)"", 0, 1), 1);
    expect("open again, refused", seleq_open(&image, (const uint8_t *)"", 0, 1), SELEQ_ALREADY_OPEN);
    expect("start, refused", start(&image, 3, "SELECT 1"), 1);
    expect("step, refused", seleq_step(&image, 99), 1);
    expect("fault, refused", seleq_fault(&image, &name, &carried), 1);
    expect("its name", is_text(&name, "ShortFile") && carried.kind == SELEQ_NULL, true);
    expect("column, refused", seleq_column(&image, 0, 0, &name), SELEQ_NO_COLUMN);
    seleq_close(&image);
    try_closed(&image);
}

/* Statements in slots, in an order that none expects. */
static void try_statements(seleq_image *image) {
    seleq_value value = SELEQ_NO_VALUE, other = SELEQ_NO_VALUE;
    size_t count = 7;
    expect("step a free slot", seleq_step(image, 0), 54);
    expect("end a free slot", seleq_end(image, 0), 54);
    expect("start in slot 16", start(image, 16, "SELECT 1"), 55);
    expect("step slot 255", seleq_step(image, 255), 54);
    expect("start a text that isn't UTF-8", start(image, 0, "SELECT '\xff'"), SELEQ_NOT_UTF8);
    expect("the fault of the step before", seleq_fault(image, &value, &other), 54);
    expect("start no statement", start(image, 0, "SELECT 1 FROM"), 30);
    expect("its fault", seleq_fault(image, &value, &other), 30);
    expect("its place", is_text(&value, "Syntax") && other.kind == SELEQ_INTEGER ? (long)other.number : -1, 13);
    expect("start", start(image, 0, "SELECT 7 AS seven, 'it''s' AS word, NULL AS none"), 0);
    expect("no fault", seleq_fault(image, &value, &other), 0);
    expect("start in the same slot", start(image, 0, "SELECT 1"), 55);
    expect("name after a refused start", seleq_name(image, 0, 0, &value), SELEQ_NO_COLUMN);
    expect("start in slot 15", start(image, 15, "SELECT 1 AS one"), 0);
    expect("names", seleq_columns(image, 15, &count) == 0 ? (long)count : -1, 1);
    expect("a name", seleq_name(image, 15, 0, &value) == 0 && is_text(&value, "one"), true);
    expect("a name past the last", seleq_name(image, 15, 1, &value), SELEQ_NO_COLUMN);
    expect("a name of another slot", seleq_name(image, 0, 0, &value), SELEQ_NO_COLUMN);
    expect("a column before a row", seleq_column(image, 15, 0, &value), SELEQ_NO_COLUMN);
    expect("step", seleq_step(image, 0), 0);
    expect("values", seleq_columns(image, 0, &count) == 0 ? (long)count : -1, 3);
    expect("a number", seleq_column(image, 0, 0, &value) == 0 && value.kind == SELEQ_INTEGER ? (long)value.number : -1, 7);
    expect("a text", seleq_column(image, 0, 1, &value) == 0 && is_text(&value, "it's"), true);
    expect("none", seleq_column(image, 0, 2, &value) == 0 ? value.kind : -1, SELEQ_NULL);
    expect("a column past the last", seleq_column(image, 0, 3, &value), SELEQ_NO_COLUMN);
    expect("the last column of all", seleq_column(image, 0, (size_t)-1, &value), SELEQ_NO_COLUMN);
    expect("a column of another slot", seleq_column(image, 15, 0, &value), SELEQ_NO_COLUMN);
    expect("step to the end", seleq_step(image, 0), SELEQ_END);
    expect("a column after the end", seleq_column(image, 0, 0, &value), SELEQ_NO_COLUMN);
    expect("step after the end", seleq_step(image, 0), 53);
    expect("start after the end", start(image, 0, "SELECT 1"), 55);
    expect("end", seleq_end(image, 0), 0);
    expect("end again", seleq_end(image, 0), 54);
    expect("start again", start(image, 0, "SELECT 9223372036854775807 + 1"), 0);
    expect("step to a fault", seleq_step(image, 0), 50);
    expect("step after the fault", seleq_step(image, 0), 53);
    expect("the other slot goes on", seleq_step(image, 15), 0);
}

static void try_order(const char *path) {
    size_t length = 0;
    uint8_t *bytes = bytes_of(path, &length);
    seleq_image image = SELEQ_CLOSED;
    try_closed(&image);
    try_refused();
    expect("open with no cache", seleq_open(&image, bytes, length, 0), SELEQ_NO_CACHE);
    expect("open", seleq_open(&image, bytes, length, 1), 0);
    memset(bytes, 0, length);
    expect("open again", seleq_open(&image, (const uint8_t *)"", 0, 1), SELEQ_ALREADY_OPEN);
    try_statements(&image);
    seleq_close(&image);
    try_closed(&image);
    __real_free(bytes);
    bytes = bytes_of(path, &length);
    expect("open after closing", seleq_open(&image, bytes, length, 1), 0);
    try_statements(&image);
    seleq_close(&image);
    __real_free(bytes);
}

/* Adds a row to a sum, or prints it. */
static unsigned long row(seleq_image *image, uint8_t slot, bool is_shown) {
    seleq_value value = SELEQ_NO_VALUE;
    size_t count = 0;
    unsigned long sum = 17;
    seleq_columns(image, slot, &count);
    for (size_t column = 0; column < count; column++) {
        seleq_column(image, slot, column, &value);
        sum = sum * 31 + value.kind + (unsigned long)value.number;
        for (size_t i = 0; i < value.length; i++) {
            sum = sum * 31 + value.at[i];
        }
        if (is_shown && value.kind == SELEQ_INTEGER) {
            printf("%s%" PRId64, column ? "," : "", value.number);
        } else if (is_shown) {
            printf("%s%s%.*s%s", column ? "," : "", value.kind ? "'" : "NULL", (int)value.length, value.at, value.kind ? "'" : "");
        }
    }
    return sum;
}

static void try_turns(const char *path, int count, char **texts) {
    size_t length = 0;
    uint8_t *bytes = bytes_of(path, &length);
    seleq_image image = SELEQ_CLOSED;
    uint8_t status[16] = {0};
    int running = count;
    expect("open", seleq_open(&image, bytes, length, 1), 0);
    __real_free(bytes);
    for (int slot = 0; slot < count; slot++) {
        expect(texts[slot], start(&image, (uint8_t)slot, texts[slot]), 0);
    }
    while (running > 0) {
        for (int slot = 0; slot < count; slot++) {
            if (status[slot] == 0 && (status[slot] = seleq_step(&image, (uint8_t)slot)) == 0) {
                printf("%d\t", slot);
                row(&image, (uint8_t)slot, true);
                putchar('\n');
            } else if (status[slot] != 255) {
                expect(texts[slot], status[slot], SELEQ_END);
                status[slot] = 255;
                running--;
            }
        }
    }
    seleq_close(&image);
}

/* A whole run over bytes in memory: 0, and the sum of its rows; or NO_MEMORY where memory was refused. */
static uint8_t run(const uint8_t *bytes, size_t length, const char *sql, unsigned long *sum) {
    seleq_image image = SELEQ_CLOSED;
    uint8_t status = seleq_open(&image, bytes, length, 2);
    if (status == 0) {
        status = start(&image, 5, sql);
    }
    *sum = 0;
    while (status == 0 && (status = seleq_step(&image, 5)) == 0) {
        *sum = *sum * 31 + row(&image, 5, false);
    }
    seleq_close(&image);
    expect("blocks that were not freed", held, 0);
    return status == SELEQ_END ? 0 : status;
}

static void try_memory(const char *path, const char *sql, long stride) {
    size_t length = 0;
    uint8_t *bytes = bytes_of(path, &length);
    unsigned long whole = 0, sum = 0;
    asked = 0;
    expect("nothing refused", run(bytes, length, sql, &whole), 0);
    long most = asked;
    for (long at = 1; at <= most; at += stride) {
        for (int further = 0; further < 2; further++) {
            refused_at = at;
            refuses_all = further;
            asked = 0;
            uint8_t status = run(bytes, length, sql, &sum);
            expect("memory refused", status == NO_MEMORY || (status == 0 && sum == whole), true);
        }
    }
    printf("%ld allocations, each %ld-th refused\n", most, stride);
    __real_free(bytes);
}

int main(int argc, char **argv) {
    if (argc == 3 && strcmp(argv[1], "order") == 0) {
        try_order(argv[2]);
    } else if (argc > 3 && argc < 20 && strcmp(argv[1], "turns") == 0) {
        try_turns(argv[2], argc - 3, argv + 3);
    } else if (argc == 5 && strcmp(argv[1], "refused") == 0) {
        try_memory(argv[2], argv[3], atol(argv[4]));
    } else {
        return 2;
    }
    return problems ? 1 : 0;
}
