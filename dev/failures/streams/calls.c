/* Lets the calls of a program fail, or move less than they could:   CALLS_READ=PLAN LD_PRELOAD=./calls.so PROGRAM
 *
 * CALLS_READ is the plan of the reads of standard input, CALLS_WRITE of the writes to standard output, CALLS_OPEN of the calls that open a file, and
 * CALLS_FILE of the reads of all descriptors but standard input. A plan is a list of numbers with commas between them, one for each call. The last one
 * is also that of each call after it. N from 0 on: the call moves at most N bytes, and 0 none. -N: the call fails with the error of this number. Calls
 * without a plan are left as they are.
 *
 * Where CALLS_TO names an open descriptor, the shim writes a letter there for each call: r, w, o and f for these four, e for a write elsewhere. */
#include <errno.h>
#include <fcntl.h>
#include <stdarg.h>
#include <stdlib.h>
#include <string.h>
#include <sys/syscall.h>
#include <unistd.h>

enum { ENOUGH = 0x7ffff000 };

struct calls {
    const char *variable;
    const char *left; /* what of the plan is left */
    int is_begun;
    char letter;
};

static struct calls input = {"CALLS_READ", NULL, 0, 'r'};
static struct calls output = {"CALLS_WRITE", NULL, 0, 'w'};
static struct calls opened = {"CALLS_OPEN", NULL, 0, 'o'};
static struct calls files = {"CALLS_FILE", NULL, 0, 'f'};
static struct calls others = {"", NULL, 0, 'e'};

static void tell(char letter) {
    const char *told = getenv("CALLS_TO");
    if (told != NULL) {
        syscall(SYS_write, atoi(told), &letter, (size_t)1);
    }
}

/* What the plan says of the next call. */
static long next_of(struct calls *calls) {
    tell(calls->letter);
    if (!calls->is_begun) {
        calls->left = getenv(calls->variable);
        calls->is_begun = 1;
    }
    if (calls->left == NULL) {
        return ENOUGH;
    }
    const char *comma = strchr(calls->left, ',');
    long most = atol(calls->left);
    calls->left = comma == NULL ? calls->left : comma + 1;
    return most;
}

/* Whether the call is made, and of how many bytes; else `*answer` is its answer. */
static int is_made(struct calls *calls, size_t *size, ssize_t *answer) {
    long most = next_of(calls);
    *answer = most < 0 ? -1 : 0;
    if (most < 0) {
        errno = (int)-most;
    } else if (*size > (size_t)most) {
        *size = (size_t)most;
    }
    return most > 0;
}

ssize_t read(int file, void *bytes, size_t size) {
    ssize_t answer;
    return is_made(file == 0 ? &input : &files, &size, &answer) ? syscall(SYS_read, file, bytes, size) : answer;
}

ssize_t write(int file, const void *bytes, size_t size) {
    ssize_t answer;
    return is_made(file == 1 ? &output : &others, &size, &answer) ? syscall(SYS_write, file, bytes, size) : answer;
}

static int opens(const char *path, int flags, va_list rest) {
    ssize_t answer;
    size_t size = 1;
    int mode = flags & O_CREAT ? va_arg(rest, int) : 0;
    return (int)(is_made(&opened, &size, &answer) ? syscall(SYS_openat, AT_FDCWD, path, flags, mode) : answer);
}

int open(const char *path, int flags, ...) {
    va_list rest;
    va_start(rest, flags);
    int file = opens(path, flags, rest);
    va_end(rest);
    return file;
}

int open64(const char *path, int flags, ...) {
    va_list rest;
    va_start(rest, flags);
    int file = opens(path, flags, rest);
    va_end(rest);
    return file;
}
