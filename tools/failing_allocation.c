/* Makes allocations of a program fail, where it is loaded before the program (LD_PRELOAD): the one whose number FAIL_AT says, from 1;
   where FAIL_HOW is `from`, that and all later ones; where it is `each`, every one whose number is a multiple of it. At the end the
   number of allocations made goes to the file that COUNT_TO names, where it names one; above it is a line for each piece that was
   written to standard output: how many bytes it has, and how many allocations were made before it. */

#define _GNU_SOURCE
#include <dlfcn.h>
#include <errno.h>
#include <stdio.h>
#include <stdlib.h>
#include <string.h>
#include <sys/uio.h>
#include <unistd.h>

/* the pieces that are written beyond so many are counted with the last one, which no test has */
#define MOST_PIECES 100000

static unsigned long made;
static struct piece { unsigned long bytes, made; } pieces[MOST_PIECES];
static unsigned long written;
static unsigned long fail_at;
static enum { once, from, each } fail_how;

static void *(*next_malloc)(size_t);
static void *(*next_realloc)(void *, size_t);
static int (*next_posix_memalign)(void **, size_t, size_t);
static void *(*next_aligned_alloc)(size_t, size_t);
static void *(*next_calloc)(size_t, size_t);
static ssize_t (*next_write)(int, const void *, size_t);
static ssize_t (*next_writev)(int, const struct iovec *, int);

__attribute__((constructor)) static void begin(void) {
    next_malloc = dlsym(RTLD_NEXT, "malloc");
    next_realloc = dlsym(RTLD_NEXT, "realloc");
    next_posix_memalign = dlsym(RTLD_NEXT, "posix_memalign");
    next_aligned_alloc = dlsym(RTLD_NEXT, "aligned_alloc");
    next_calloc = dlsym(RTLD_NEXT, "calloc");
    next_write = dlsym(RTLD_NEXT, "write");
    next_writev = dlsym(RTLD_NEXT, "writev");
    const char *number = getenv("FAIL_AT");
    fail_at = number ? strtoul(number, NULL, 10) : 0;
    const char *how = getenv("FAIL_HOW");
    fail_how = how && !strcmp(how, "from") ? from : how && !strcmp(how, "each") ? each : once;
    made = 0;
}

__attribute__((destructor)) static void end(void) {
    const char *path = getenv("COUNT_TO");
    unsigned long count = made;
    fail_at = 0;
    FILE *file = path ? fopen(path, "w") : NULL;
    if (file) {
        for (unsigned long at = 0; at < written; at++)
            fprintf(file, "%lu %lu\n", pieces[at].bytes, pieces[at].made);
        fprintf(file, "%lu\n", count);
        fclose(file);
    }
}

static int fails(void) {
    made++;
    if (!fail_at || (fail_how == once && made != fail_at) || (fail_how == from && made < fail_at) || (fail_how == each && made % fail_at))
        return 0;
    errno = ENOMEM;
    return 1;
}

static ssize_t after(int stream, ssize_t bytes) {
    if (stream == STDOUT_FILENO && bytes > 0 && written < MOST_PIECES)
        pieces[written++] = (struct piece){bytes, made};
    return bytes;
}

ssize_t write(int stream, const void *from, size_t size) {
    return after(stream, next_write(stream, from, size));
}

ssize_t writev(int stream, const struct iovec *from, int count) {
    return after(stream, next_writev(stream, from, count));
}

void *malloc(size_t size) {
    if (!next_malloc)
        next_malloc = dlsym(RTLD_NEXT, "malloc");
    return fails() ? NULL : next_malloc(size);
}

void *realloc(void *old, size_t size) {
    if (!next_realloc)
        next_realloc = dlsym(RTLD_NEXT, "realloc");
    return fails() ? NULL : next_realloc(old, size);
}

int posix_memalign(void **place, size_t alignment, size_t size) {
    if (!next_posix_memalign)
        next_posix_memalign = dlsym(RTLD_NEXT, "posix_memalign");
    return fails() ? ENOMEM : next_posix_memalign(place, alignment, size);
}

void *aligned_alloc(size_t alignment, size_t size) {
    if (!next_aligned_alloc)
        next_aligned_alloc = dlsym(RTLD_NEXT, "aligned_alloc");
    return fails() ? NULL : next_aligned_alloc(alignment, size);
}

void *calloc(size_t count, size_t size) {
    /* dlsym itself may ask for memory before the next calloc is known: it does without */
    if (!next_calloc)
        return NULL;
    return fails() ? NULL : next_calloc(count, size);
}
