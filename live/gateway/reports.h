/* Reports as gateway and stock door make and check them: the kind (R or U), the index in four bytes, and a pattern of seed, kind and index. The
 * door has the same in live/door/src/reports.rs. */
#include <stddef.h>
#include <time.h>

static unsigned seed = 1;

/* Microseconds that all programs of a run have in common. */
static unsigned long long stamp(void) {
    struct timespec now;
    clock_gettime(CLOCK_REALTIME, &now);
    return (unsigned long long)now.tv_sec * 1000000u + (unsigned long long)now.tv_nsec / 1000u;
}

static unsigned report_index(const unsigned char *bytes, size_t length) {
    if (length < 5) return 0xffffffffu;
    return (unsigned)bytes[1] << 24 | (unsigned)bytes[2] << 16 | (unsigned)bytes[3] << 8 | bytes[4];
}

static unsigned pattern_start(unsigned char kind, unsigned index) {
    return (seed * 2654435761u) ^ (index * 40503u) ^ kind ^ 0x9e3779b9u;
}

static unsigned bytes_wrong(const unsigned char *bytes, size_t length) {
    unsigned state, count = 0;
    if (length < 5) return 1;
    state = pattern_start(bytes[0], report_index(bytes, length));
    for (size_t i = 5; i < length; i++) {
        state = state * 1664525u + 1013904223u;
        if (bytes[i] != (unsigned char)(state >> 24)) count++;
    }
    return count;
}
