/* Stands between the program and the C library: counts requests for memory, and refuses one of them.
 *
 * PLIFT_REFUSE   the number, from 1, of the request that is refused; none where it is 0 or not given
 * PLIFT_ALL      where it is given, all requests behind that one are refused as well
 * PLIFT_LOG      a file that gets a line for each request: how many bytes, and whether it was refused;
 *                and a line "write" at the first write to standard output
 */
#define _GNU_SOURCE
#include <dlfcn.h>
#include <errno.h>
#include <fcntl.h>
#include <stddef.h>
#include <stdlib.h>
#include <string.h>
#include <unistd.h>

static void *(*next_malloc)(size_t);
static void *(*next_realloc)(void *, size_t);
static void *(*next_calloc)(size_t, size_t);
static ssize_t (*next_write)(int, const void *, size_t);
static long count, refused;
static int log_file = -1, has_written, is_ready, refuses_all;

static void set_up(void) {
    if (is_ready) return;
    is_ready = 1;
    next_malloc = dlsym(RTLD_NEXT, "malloc");
    next_realloc = dlsym(RTLD_NEXT, "realloc");
    next_calloc = dlsym(RTLD_NEXT, "calloc");
    next_write = dlsym(RTLD_NEXT, "write");
    const char *word = getenv("PLIFT_REFUSE");
    if (word) refused = atol(word);
    refuses_all = getenv("PLIFT_ALL") != NULL;
    word = getenv("PLIFT_LOG");
    if (word) log_file = open(word, O_WRONLY | O_CREAT | O_TRUNC | O_CLOEXEC, 0600);
}

__attribute__((constructor)) static void begin(void) { set_up(); }

static void log_line(size_t bytes, const char *word) {
    char line[64], digits[24];
    size_t at = 0, n = 0;
    if (log_file < 0) return;
    do digits[n++] = '0' + bytes % 10; while ((bytes /= 10) > 0);
    while (n > 0) line[at++] = digits[--n];
    line[at++] = ' ';
    memcpy(line + at, word, strlen(word));
    at += strlen(word);
    line[at++] = '\n';
    if (next_write(log_file, line, at) < 0) _exit(99);
}

static int is_refused(size_t bytes) {
    set_up();
    count++;
    int refuse = count == refused || (refuses_all && refused > 0 && count > refused);
    log_line(bytes, refuse ? "refused" : "given");
    if (refuse) errno = ENOMEM;
    return refuse;
}

void *malloc(size_t bytes) {
    return is_refused(bytes) ? NULL : next_malloc(bytes);
}

void *realloc(void *old, size_t bytes) {
    return is_refused(bytes) ? NULL : next_realloc(old, bytes);
}

void *calloc(size_t number, size_t bytes) {
    /* The loader may ask before this library is ready. */
    if (!next_calloc) return NULL;
    return is_refused(number * bytes) ? NULL : next_calloc(number, bytes);
}

ssize_t write(int file, const void *bytes, size_t size) {
    set_up();
    if (file == 1 && !has_written) {
        has_written = 1;
        log_line(size, "write");
    }
    return next_write(file, bytes, size);
}
