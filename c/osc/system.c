/* What the program `osc` asks of Linux beside the C library, for a target for which Rattle's kit has no such functions: the words of its command line,
 * the environment, errno, and two calls whose words the kit doesn't write. Each does what the kit's contract of it says (the module `c` of its library `os`). The heap is that of c/heap.c.
 *
 * scripts/build compiles it for aarch64. The program for x86-64 has the kit's own. */
#define _GNU_SOURCE
#include <errno.h>
#include <fcntl.h>
#include <stdbool.h>
#include <stddef.h>
#include <stdint.h>
#include <stdlib.h>
#include <string.h>
#include <sys/ioctl.h>
#include <unistd.h>

size_t rattle_arg_count(void);
ptrdiff_t rattle_arg(size_t at, unsigned char *to, size_t room);
ptrdiff_t rattle_env(const char *name, unsigned char *to, size_t room);
ptrdiff_t rattle_env_at(size_t at, unsigned char *to, size_t room);
int32_t rattle_errno(void);
void rattle_set_errno(int32_t error);
int32_t rattle_set_nonblocking(int32_t fd, bool on);
int32_t rattle_lock_range(int32_t fd, int16_t kind, int64_t start, int64_t length);

static size_t word_count;
static char **words;

/* The C library hands the words to what runs before main. */
__attribute__((constructor)) static void keep_words(int count, char **given) {
    word_count = count < 0 ? 0 : (size_t)count;
    words = given;
}

/* Puts a text at the start of `to`, and answers its length; -1 where there is none, and -2 where it doesn't fit: then `to` is full. */
static ptrdiff_t put(const char *text, unsigned char *to, size_t room) {
    if (text == NULL) return -1;
    size_t length = strlen(text);
    memcpy(to, text, length < room ? length : room);
    return length <= room ? (ptrdiff_t)length : -2;
}

size_t rattle_arg_count(void) { return word_count; }

ptrdiff_t rattle_arg(size_t at, unsigned char *to, size_t room) { return put(at < word_count ? words[at] : NULL, to, room); }

/* The value of a variable. */
ptrdiff_t rattle_env(const char *name, unsigned char *to, size_t room) { return put(getenv(name), to, room); }

/* An entry of the environment: NAME=VALUE. */
ptrdiff_t rattle_env_at(size_t at, unsigned char *to, size_t room) {
    if (environ == NULL) return -1;
    for (size_t before = 0; before < at; before++) {
        if (environ[before] == NULL) return -1;
    }
    return put(environ[at], to, room);
}

int32_t rattle_errno(void) { return errno; }

void rattle_set_errno(int32_t error) { errno = error; }

/* Sets or clears O_NONBLOCK of what `fd` is open on: 0, or -1 with errno. */
int32_t rattle_set_nonblocking(int32_t fd, bool on) {
    int value = on;
    return ioctl(fd, FIONBIO, &value);
}

/* Linux's fcntl at F_OFD_SETLK, of a range that is counted from the start of the file: 0, or -1 with errno. */
int32_t rattle_lock_range(int32_t fd, int16_t kind, int64_t start, int64_t length) {
    struct flock range = {.l_type = kind, .l_whence = SEEK_SET, .l_start = start, .l_len = length};
    return fcntl(fd, F_OFD_SETLK, &range);
}
