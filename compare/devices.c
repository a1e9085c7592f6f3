/* A library to be loaded before a program's own, which stands before the C library's pread and write. From the environment:

   READ_FAILS   the read with this number fails, counted from 1; with READS_FAIL each one from there on
   READ_OTHER   from the read with this number on, the bytes are those of the file that OTHER names
   WRITE_ROOM   standard output takes so many bytes in all, WRITE_STEP at most at a time, and then none
   READ_COUNT   the file that holds at the end of the program how many reads there were */
#define _GNU_SOURCE
#include <dlfcn.h>
#include <errno.h>
#include <fcntl.h>
#include <stdlib.h>
#include <sys/types.h>
#include <unistd.h>

typedef ssize_t (*read_function)(int, void *, size_t, off_t);
typedef ssize_t (*write_function)(int, const void *, size_t);

static read_function next_read;
static write_function next_write;
static unsigned long reads, failing, others, room, step;
static int fails_on, has_room, other = -1;
static const char *count_file;

static unsigned long number(const char *name) {
    const char *text = getenv(name);
    return text == NULL ? 0 : strtoul(text, NULL, 10);
}

__attribute__((constructor)) static void begin(void) {
    next_read = (read_function)dlsym(RTLD_NEXT, "pread");
    next_write = (write_function)dlsym(RTLD_NEXT, "write");
    failing = number("READ_FAILS");
    fails_on = getenv("READS_FAIL") != NULL;
    others = number("READ_OTHER");
    has_room = getenv("WRITE_ROOM") != NULL;
    room = number("WRITE_ROOM");
    step = number("WRITE_STEP");
    count_file = getenv("READ_COUNT");
    if (others != 0) {
        other = open(getenv("OTHER"), O_RDONLY);
    }
}

ssize_t pread(int file, void *bytes, size_t length, off_t place) {
    reads++;
    if (failing != 0 && (reads == failing || (fails_on && reads > failing))) {
        errno = EIO;
        return -1;
    }
    return next_read(others != 0 && reads >= others ? other : file, bytes, length, place);
}

ssize_t write(int file, const void *bytes, size_t length) {
    size_t taken = length;
    if (file != STDOUT_FILENO || !has_room) {
        return next_write(file, bytes, length);
    }
    taken = step != 0 && taken > step ? step : taken;
    taken = taken > room ? room : taken;
    if (taken == 0 && length > 0) {
        errno = ENOSPC;
        return -1;
    }
    room -= taken;
    return next_write(file, bytes, taken);
}

__attribute__((destructor)) static void tell_count(void) {
    char digits[24];
    int at = sizeof digits;
    int file;
    if (count_file == NULL) {
        return;
    }
    do {
        digits[--at] = '0' + reads % 10;
        reads /= 10;
    } while (reads > 0);
    file = open(count_file, O_WRONLY | O_CREAT | O_TRUNC, 0600);
    if (file >= 0 && next_write(file, digits + at, sizeof digits - at) < 0) {
        _exit(99);
    }
}
