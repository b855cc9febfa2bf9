/* Loaded before a program: each sync of a file copies it into the folder that SYNCED names, under the file's own name, and does nothing else. So that folder
   has what a power cut can't take from the disk. The sync of the number that FAILS says, counted from 1, fails. */
#define _GNU_SOURCE
#include <errno.h>
#include <fcntl.h>
#include <limits.h>
#include <stdio.h>
#include <stdlib.h>
#include <string.h>
#include <sys/stat.h>
#include <unistd.h>

static int failed(void) {
    errno = EIO;
    return -1;
}

static int copied(int file) {
    static long calls;
    const char *folder = getenv("SYNCED"), *fails = getenv("FAILS");
    char link[64], name[PATH_MAX], copy[2 * PATH_MAX], made[2 * PATH_MAX + 8];
    struct stat about;
    if ((fails && ++calls == atol(fails)) || !folder || fstat(file, &about) != 0) return failed();
    if (!S_ISREG(about.st_mode)) return 0;
    snprintf(link, sizeof link, "/proc/self/fd/%d", file);
    ssize_t length = readlink(link, name, sizeof name - 1);
    if (length < 0) return failed();
    name[length] = 0;
    snprintf(copy, sizeof copy, "%s/%s", folder, strrchr(name, '/') + 1);
    snprintf(made, sizeof made, "%s.new", copy);
    int out = open(made, O_CREAT | O_TRUNC | O_WRONLY, 0600);
    if (out < 0) return failed();
    char bytes[65536];
    ssize_t count;
    for (off_t at = 0; (count = pread(file, bytes, sizeof bytes, at)) > 0; at += count) {
        if (write(out, bytes, (size_t)count) != count) count = -1;
        if (count < 0) break;
    }
    close(out);
    /* (the copy is there whole, or as it was) */
    return count == 0 && rename(made, copy) == 0 ? 0 : failed();
}

int fsync(int file) { return copied(file); }

int fdatasync(int file) { return copied(file); }
