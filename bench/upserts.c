/* SQLite's own library, which keeps one change after the other as a server with a store does:

     upserts FILE SECONDS PATHS

   A row of 64 bytes is put at each of so many paths in turn, one transaction each, in a table like the store's. It prints how many were kept, and in how
   many seconds. */
#include <sqlite3.h>
#include <stdio.h>
#include <stdlib.h>
#include <time.h>

static sqlite3 *base;

static void fail(void) {
    fprintf(stderr, "upserts: %s\n", sqlite3_errmsg(base));
    exit(2);
}

static void run(const char *words) {
    if (sqlite3_exec(base, words, NULL, NULL, NULL) != SQLITE_OK) fail();
}

static double seconds(void) {
    struct timespec now;
    clock_gettime(CLOCK_MONOTONIC, &now);
    return (double)now.tv_sec + (double)now.tv_nsec / 1e9;
}

int main(int words, char **word) {
    double most = words == 4 ? atof(word[2]) : 0;
    int paths = words == 4 ? atoi(word[3]) : 0;
    if (most <= 0 || paths < 1) {
        fprintf(stderr, "upserts: say a file that isn't there, how many seconds, and how many paths\n");
        return 2;
    }
    if (sqlite3_open(word[1], &base) != SQLITE_OK) fail();
    run("PRAGMA journal_mode = wal; PRAGMA synchronous = full");
    run("CREATE TABLE resource(path TEXT PRIMARY KEY, format INTEGER, payload BLOB NOT NULL) STRICT, WITHOUT ROWID");
    sqlite3_stmt *put;
    if (sqlite3_prepare_v2(base, "INSERT OR REPLACE INTO resource VALUES (?, NULL, ?)", -1, &put, NULL) != SQLITE_OK) fail();
    double begun = seconds(), taken = 0;
    long changes = 0;
    for (; taken < most; taken = seconds() - begun) {
        char path[32], payload[65];
        int length = snprintf(path, sizeof path, "/log/%ld", changes % paths);
        snprintf(payload, sizeof payload, "%064ld", changes);
        /* (without words of its own around it, a statement is a transaction) */
        if (sqlite3_bind_text(put, 1, path, length, SQLITE_STATIC) != SQLITE_OK || sqlite3_bind_blob(put, 2, payload, 64, SQLITE_STATIC) != SQLITE_OK) fail();
        if (sqlite3_step(put) != SQLITE_DONE || sqlite3_reset(put) != SQLITE_OK) fail();
        changes++;
    }
    printf("%ld %f\n", changes, taken);
    sqlite3_finalize(put);
    sqlite3_close(base);
    return 0;
}
