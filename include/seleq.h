/* seleq: a read-only query engine for SQLite database files whose answers are proved, as a library for C.

   A program opens an image, the bytes of a database file, which is checked whole; starts SELECTs in slots of it; and steps
   each of them from row to row, side by side with the others:

       seleq_image image = SELEQ_CLOSED;
       seleq_value value = SELEQ_NO_VALUE;
       if (seleq_open(&image, bytes, size, 256) == 0 && seleq_start(&image, 0, text, length) == 0) {
           while (seleq_step(&image, 0) == 0) {
               seleq_column(&image, 0, 0, &value);
               ...
           }
       }
       seleq_close(&image);

   How to link it: README, "From other languages". What each fault means: docs/FAULTS.md.

   What a call answers: 0 where it did as asked; the number of a fault, 1 to 55; or one of the numbers below. A call on an
   image that isn't open answers SELEQ_NOT_OPEN and touches nothing.

   What the program owes, which nothing checks:
   - An image begins as SELEQ_CLOSED and a value as SELEQ_NO_VALUE. Their members are read, but not written, and an image is
     never copied.
   - No pointer is null. A length beside a pointer is how many bytes are there; the pointer isn't null where it is 0 either.
   - What is given to one call doesn't overlap: two values are two variables.
   - An image is used by one thread at a time, and not by a signal handler or the forked child of a process with threads.
   - malloc, realloc and free are of one allocator. */
#ifndef SELEQ_H
#define SELEQ_H

#include <stdbool.h>
#include <stddef.h>
#include <stdint.h>

#ifdef __cplusplus
extern "C" {
#endif

/* An image, with the statements in its sixteen slots and the answer of its last step. */
typedef struct {
    void *at;
    bool live;
} seleq_image;

#define SELEQ_CLOSED { NULL, false }

/* A value. Its bytes lie in the image, until the next call on that; they have no 0 at their end. */
typedef struct {
    uint8_t kind;      /* SELEQ_NULL, SELEQ_INTEGER, SELEQ_TEXT or SELEQ_BLOB */
    int64_t number;    /* a whole number; else 0 */
    const uint8_t *at; /* the bytes of a text, in UTF-8, or of a blob; else none. Never null */
    size_t length;
} seleq_value;

#define SELEQ_NO_VALUE { 0, 0, (const uint8_t *)"", 0 }

enum { SELEQ_NULL = 0, SELEQ_INTEGER = 1, SELEQ_TEXT = 2, SELEQ_BLOB = 3 };

/* Answers that are no faults of docs/FAULTS.md. */
enum {
    SELEQ_NOT_OPEN = 60,     /* the image isn't open */
    SELEQ_ALREADY_OPEN = 61, /* it is open already: close it first */
    SELEQ_NO_COLUMN = 62,    /* the last step gave no such column, or was made on another slot */
    SELEQ_NOT_UTF8 = 63,     /* the text isn't UTF-8; no step was made */
    SELEQ_NO_CACHE = 64,     /* the cache is to keep no page at all */
    SELEQ_END = 100          /* there is no further row: those that came are the whole answer */
};

/* ---- Opening

   An image is checked whole when it is opened: one with a single damaged page, record or index is refused. `cache` is how
   many of its pages are kept, at least 1; 256 serve well. An image that was refused keeps its fault, which seleq_fault gives
   and every step answers; it is closed as any other is. Only where memory is refused for the image itself (28, NoMemory), it
   is closed still. */

/* Opens a copy of these bytes. They don't change under it, and what is proved of answers holds without a condition.

   The library opens no file: examples/file.h reads one. Where a journal lies beside a file that isn't empty (after its path
   "-journal" or "-wal"), the last changes may not be in its bytes. */
uint8_t seleq_open(seleq_image *image, const uint8_t *bytes, size_t length, size_t cache);

/* Closes an image and frees all that it has. Closing one that is closed is well. */
void seleq_close(seleq_image *image);

/* ---- Statements

   A slot, 0 to 15, has one statement. Those of different slots don't touch each other: each answers as if it were alone. */

/* Opens a SELECT in a slot that is free. It is before its first row then, and the names of its columns may be looked at.
   A slot that isn't free answers 55, TooManyStatements; end it first. */
uint8_t seleq_start(seleq_image *image, uint8_t slot, const uint8_t *text, size_t length);

/* Goes on to the next row: 0 where there is one, SELEQ_END after the last, or the fault that ended the statement. Asked again
   after either, 53, Finished; asked of a free slot, 54, NoStatement. */
uint8_t seleq_step(seleq_image *image, uint8_t slot);

/* Frees a slot, also in the middle of a statement. One that is free answers 54, NoStatement. */
uint8_t seleq_end(seleq_image *image, uint8_t slot);

/* ---- Looking at the last step

   The last call of seleq_start, seleq_step or seleq_end on an image may be looked at, until the next one. */

/* How many columns it gave: the names after seleq_start, the values after a row, else 0. */
uint8_t seleq_columns(seleq_image *image, uint8_t slot, size_t *count);

/* The name of a column, counted from 0, after seleq_start on this slot. */
uint8_t seleq_name(seleq_image *image, uint8_t slot, size_t column, seleq_value *name);

/* The value in a column, counted from 0, after seleq_step gave a row of this slot. */
uint8_t seleq_column(seleq_image *image, uint8_t slot, size_t column, seleq_value *value);

/* The number of its fault, or 0 where it has none and nothing is written. The name is a text. What the fault carries is the
   number of a page or the place of a byte, the name of a table or an index, or NULL. */
uint8_t seleq_fault(seleq_image *image, seleq_value *name, seleq_value *carried);

#ifdef __cplusplus
}
#endif

#endif
