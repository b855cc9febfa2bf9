/* The moment that a node is handed: milliseconds since 1970, which never fall. It is what the wall clock said at the start, and what a clock that nobody
 * sets has counted since, also while the system slept. Where the wall was ahead of that in each reading of a minute, the moment steps up by the least
 * lead: so no single reading moves it, and a clock that is set back lengthens nothing. */
#ifndef MOMENT_H
#define MOMENT_H

#include <stdbool.h>
#include <stdint.h>
#include <time.h>

enum { MINUTE = 60000 };

/* How far the wall is before the count, in ms: at first, or as it was believed since; and where it was more in each reading since then, the least. */
typedef struct clocks {
    bool begun, is_ahead;
    int64_t believed, least;
    uint64_t since;
} clocks;

/* The moment of these readings of the wall and of the count, in ms. */
static inline uint64_t moment_of(clocks *it, uint64_t wall, uint64_t counted) {
    int64_t lead = (int64_t)(wall - counted);
    if (!it->begun) {
        it->begun = true;
        it->believed = lead;
    }
    if (lead <= it->believed) {
        it->is_ahead = false;
    } else if (!it->is_ahead) {
        it->is_ahead = true;
        it->since = counted;
        it->least = lead;
    } else if (lead < it->least) {
        it->least = lead;
    }
    if (it->is_ahead && counted - it->since >= MINUTE) {
        it->is_ahead = false;
        it->believed = it->least;
    }
    return counted + (uint64_t)it->believed;
}

#ifdef CLOCK_BOOTTIME
/* What a clock says, in ms; false where it can't be read. */
static inline bool read_clock(clockid_t clock, uint64_t *ms) {
    struct timespec it;
    if (clock_gettime(clock, &it) != 0) return false;
    *ms = it.tv_sec < 0 ? 0 : (uint64_t)it.tv_sec * 1000 + (uint64_t)it.tv_nsec / 1000000;
    return true;
}

/* The moment now; false where a clock can't be read. */
static inline bool read_moment(uint64_t *moment) {
    static clocks it;
    uint64_t wall, counted;
    if (!read_clock(CLOCK_REALTIME, &wall) || !read_clock(CLOCK_BOOTTIME, &counted)) return false;
    *moment = moment_of(&it, wall, counted);
    return true;
}
#endif

#endif
