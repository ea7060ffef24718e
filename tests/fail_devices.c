/* A library that is loaded before the C library. It makes a device of the program fail after each number of bytes, all in one
   run: before each byte it forks, and in the child the device fails there. The parent checks how the child ends, takes back what
   the child wrote, and goes on as if nothing had failed. The program must have no other thread.

   FAILING is `reads` or `writes`. With `reads` standard input gives one byte at a time, and in a child each further read is an
   error. Inside a long line it fails only at some bytes. With `writes` standard output takes so many bytes in a child, then fails
   once, and then takes bytes again.

   A child has to end with status 3, to print just FAULT on standard error, and to write nothing after the failure. Standard
   output and standard error have to be files of their own. The file LOG gets a line for each child that does otherwise; with
   `reads`, a line `K bytes read, N bytes written` for the first K with that N; and last a line `N runs`, the number of
   children. */
#define _GNU_SOURCE
#include <dlfcn.h>
#include <errno.h>
#include <fcntl.h>
#include <stdio.h>
#include <stdlib.h>
#include <string.h>
#include <sys/stat.h>
#include <sys/wait.h>
#include <unistd.h>

static int is_child;
static long children;
/* How many bytes standard input gave, how many of them are of the present line, and how long standard output was when that was
   logged last. */
static long given, in_line, logged = -1;
/* In a child whose standard output fails: how many bytes it takes before that, or -1 after it. */
static long room;

static ssize_t (*next_read)(int, void *, size_t);
static ssize_t (*next_write)(int, const void *, size_t);

static void find_next(void) {
    if (next_read == NULL) {
        next_read = (ssize_t(*)(int, void *, size_t))dlsym(RTLD_NEXT, "read");
        next_write = (ssize_t(*)(int, const void *, size_t))dlsym(RTLD_NEXT, "write");
    }
}

static int is_failing(const char *devices) {
    const char *failing = getenv("FAILING");
    return failing != NULL && strcmp(failing, devices) == 0;
}

static long length_of(int file) {
    struct stat status;
    return fstat(file, &status) == 0 ? (long)status.st_size : -1;
}

static void log_line(const char *format, long one, long two) {
    static int log = -1;
    char line[200];
    if (log < 0)
        log = open(getenv("LOG"), O_CREAT | O_WRONLY | O_APPEND | O_CLOEXEC, 0600);
    int length = snprintf(line, sizeof line, format, one, two);
    if (next_write(log, line, length) != length)
        abort();
}

/* Shortens a file, and goes on writing at its new end. */
static void cut(int file, long length) {
    if (ftruncate(file, length) != 0 || lseek(file, length, SEEK_SET) < 0)
        abort();
}

/* Whether the file has these bytes at `at`, and then ends. */
static int ends_with(int file, long at, const void *bytes, long length) {
    char found[70000];
    char path[40];
    if (length_of(file) != at + length || length > (long)sizeof found)
        return 0;
    snprintf(path, sizeof path, "/proc/self/fd/%d", file);
    int reader = open(path, O_RDONLY | O_CLOEXEC);
    int same = pread(reader, found, length, at) == length && memcmp(found, bytes, length) == 0;
    close(reader);
    return same;
}

/* Forks, and returns 0 in the child. In the parent, waits for the child, logs what is wrong with it, takes back what it wrote,
   and returns 1. After the failure of its device the child has written `length` bytes. */
static int fork_failing(long after, const void *bytes, long length) {
    long written = length_of(1), errors = length_of(2);
    const char *fault = getenv("FAULT");
    int status = 0;
    pid_t child = fork();
    if (child == 0) {
        is_child = 1;
        return 0;
    }
    if (child < 0 || waitpid(child, &status, 0) != child)
        abort();
    children++;
    if (!WIFEXITED(status) || WEXITSTATUS(status) != 3)
        log_line("after %ld bytes: status %ld\n", after, WIFEXITED(status) ? WEXITSTATUS(status) : -WTERMSIG(status));
    if (!ends_with(1, written, bytes, length))
        log_line("after %ld bytes: %ld bytes on standard output\n", after, length_of(1));
    if (!ends_with(2, errors, fault, strlen(fault)))
        log_line("after %ld bytes: %ld bytes on standard error\n", after, length_of(2) - errors);
    cut(1, written);
    cut(2, errors);
    return 1;
}

static ssize_t read_byte(char *to) {
    ssize_t count = next_read(0, to, 1);
    if (count == 0)
        log_line("%ld runs\n", children, 0);
    given += count;
    in_line = count == 1 && *to == '\n' ? 0 : in_line + count;
    return count;
}

ssize_t read(int file, void *to, size_t length) {
    find_next();
    if (file != 0 || length == 0 || !is_failing("reads"))
        return next_read(file, to, length);
    if (!is_child) {
        if (length_of(1) != logged) {
            logged = length_of(1);
            log_line("%ld bytes read, %ld bytes written\n", given, logged);
        }
        int is_tried = in_line < 300 || in_line % 1024 == 0 || in_line > 65500;
        if (!is_tried || fork_failing(given, "", 0))
            return read_byte(to);
    }
    /* An interrupted read is an error like any other. */
    errno = given % 2 == 0 ? EIO : EINTR;
    return -1;
}

static ssize_t write_some(int file, const void *bytes, size_t length) {
    find_next();
    if (file != 1 || length == 0 || !is_failing("writes"))
        return next_write(file, bytes, length);
    for (long taken = 0; !is_child && taken < (long)length; taken++) {
        if (!fork_failing(length_of(1) + taken, bytes, taken))
            room = taken;
    }
    if (!is_child) {
        log_line("%ld runs\n", children, 0);
        return next_write(1, bytes, length);
    }
    if (room == 0) {
        room = -1;
        errno = ENOSPC;
        return -1;
    }
    if (room > 0) {
        ssize_t count = next_write(1, bytes, (long)length < room ? length : (size_t)room);
        room -= count;
        return count;
    }
    return next_write(1, bytes, length);
}

ssize_t write(int file, const void *bytes, size_t length) {
    return write_some(file, bytes, length);
}

ssize_t __write(int file, const void *bytes, size_t length) {
    return write_some(file, bytes, length);
}
