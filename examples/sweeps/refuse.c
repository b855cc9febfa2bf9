/* Loaded before a program: refuses its N-th call of malloc, or of realloc where that takes more, counted from 1; N is what the environment's
   REFUSE says. A file of the name that REFUSED says is made where it did. */
#define _GNU_SOURCE
#include <dlfcn.h>
#include <errno.h>
#include <fcntl.h>
#include <malloc.h>
#include <stddef.h>
#include <stdlib.h>
#include <unistd.h>

static void *(*real_malloc)(size_t size);
static void *(*real_realloc)(void *block, size_t size);
static long left = -1;

__attribute__((constructor)) static void begin(void) {
    const char *which = getenv("REFUSE");
    if (!real_malloc) real_malloc = dlsym(RTLD_NEXT, "malloc");
    if (!real_realloc) real_realloc = dlsym(RTLD_NEXT, "realloc");
    left = which ? atol(which) : 0;
}

static int is_refused(void) {
    const char *told;
    int file;
    if (left < 1 || --left) return 0;
    told = getenv("REFUSED");
    if (told && (file = open(told, O_CREAT | O_WRONLY, 0644)) >= 0) close(file);
    errno = ENOMEM;
    return 1;
}

void *malloc(size_t size) {
    if (!real_malloc) real_malloc = dlsym(RTLD_NEXT, "malloc");
    return is_refused() ? NULL : real_malloc(size);
}

void *realloc(void *block, size_t size) {
    if (!real_realloc) real_realloc = dlsym(RTLD_NEXT, "realloc");
    if (block && size <= malloc_usable_size(block)) return real_realloc(block, size);
    return is_refused() ? NULL : real_realloc(block, size);
}
