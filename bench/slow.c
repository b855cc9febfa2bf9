/* Loaded before a program: each sync of a file takes 0.2 milliseconds and does nothing else. On a file system in memory each program has the same disk so.
   The file that SYNCS names, of eight bytes, has their number. */
#define _GNU_SOURCE
#include <errno.h>
#include <fcntl.h>
#include <stdint.h>
#include <stdlib.h>
#include <sys/mman.h>
#include <sys/prctl.h>
#include <time.h>
#include <unistd.h>

enum { NANOSECONDS = 200000, SECOND = 1000000000 };

static uint64_t *number;

__attribute__((constructor)) static void begin(void) {
    const char *name = getenv("SYNCS");
    int file = name ? open(name, O_RDWR) : -1;
    void *mapped = file < 0 ? MAP_FAILED : mmap(NULL, sizeof *number, PROT_READ | PROT_WRITE, MAP_SHARED, file, 0);
    if (mapped != MAP_FAILED) number = mapped;
    if (file >= 0) close(file);
    /* The system may wake who sleeps 50 microseconds late, unless it is told otherwise. */
    prctl(PR_SET_TIMERSLACK, 1UL);
}

static int slow(void) {
    struct timespec until;
    clock_gettime(CLOCK_MONOTONIC, &until);
    until.tv_nsec += NANOSECONDS;
    until.tv_sec += until.tv_nsec / SECOND;
    until.tv_nsec %= SECOND;
    while (clock_nanosleep(CLOCK_MONOTONIC, TIMER_ABSTIME, &until, NULL) == EINTR) {}
    if (number) ++*number;
    return 0;
}

int fsync(int file) {
    (void)file;
    return slow();
}

int fdatasync(int file) {
    (void)file;
    return slow();
}

int sync_file_range(int file, off64_t from, off64_t length, unsigned how) {
    (void)file, (void)from, (void)length, (void)how;
    return slow();
}
