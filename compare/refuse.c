/* A library to be loaded before a program's own: the allocation with the number that the environment variable REFUSE_AT
   gives fails, counted from 1 since main began. With REFUSE_ALL each one from there on fails. At the end of the program
   the file that REFUSE_COUNT names holds how many there were. */
#define _GNU_SOURCE
#include <dlfcn.h>
#include <errno.h>
#include <fcntl.h>
#include <stdint.h>
#include <stdlib.h>
#include <unistd.h>

typedef int (*main_function)(int, char **, char **);
typedef int (*start_function)(main_function, int, char **, void (*)(void), void (*)(void), void (*)(void), void *);

extern void *__libc_malloc(size_t);
extern void *__libc_calloc(size_t, size_t);
extern void *__libc_realloc(void *, size_t);
extern void *__libc_memalign(size_t, size_t);

static main_function program_main;
static int has_begun, refuses_all;
static unsigned long count, refused_at;
static const char *count_file;

static int is_refused(void) {
    if (!has_begun) {
        return 0;
    }
    count++;
    if (refused_at != 0 && (count == refused_at || (refuses_all && count > refused_at))) {
        errno = ENOMEM;
        return 1;
    }
    return 0;
}

void *malloc(size_t size) {
    return is_refused() ? NULL : __libc_malloc(size);
}

void *calloc(size_t members, size_t size) {
    return is_refused() ? NULL : __libc_calloc(members, size);
}

void *realloc(void *old, size_t size) {
    return is_refused() ? NULL : __libc_realloc(old, size);
}

void *memalign(size_t alignment, size_t size) {
    return is_refused() ? NULL : __libc_memalign(alignment, size);
}

void *aligned_alloc(size_t alignment, size_t size) {
    return memalign(alignment, size);
}

int posix_memalign(void **place, size_t alignment, size_t size) {
    void *found = memalign(alignment, size);
    if (found == NULL) {
        return ENOMEM;
    }
    *place = found;
    return 0;
}

/* Writes the count by system calls alone, so that telling it takes no memory. */
__attribute__((destructor)) static void tell_count(void) {
    char digits[24];
    int at = sizeof digits;
    int file;
    has_begun = 0;
    if (count_file == NULL) {
        return;
    }
    do {
        digits[--at] = '0' + count % 10;
        count /= 10;
    } while (count > 0);
    file = open(count_file, O_WRONLY | O_CREAT | O_TRUNC, 0600);
    if (file >= 0 && write(file, digits + at, sizeof digits - at) < 0) {
        _exit(99);
    }
}

static int counted_main(int argc, char **argv, char **environment) {
    const char *at = getenv("REFUSE_AT");
    refused_at = at == NULL ? 0 : strtoul(at, NULL, 10);
    refuses_all = getenv("REFUSE_ALL") != NULL;
    count_file = getenv("REFUSE_COUNT");
    has_begun = 1;
    return program_main(argc, argv, environment);
}

int __libc_start_main(main_function main, int argc, char **argv, void (*init)(void), void (*fini)(void),
                      void (*rtld_fini)(void), void *stack_end) {
    start_function start = (start_function)dlsym(RTLD_NEXT, "__libc_start_main");
    program_main = main;
    return start(counted_main, argc, argv, init, fini, rtld_fini, stack_end);
}
