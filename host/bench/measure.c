/* The clock of the process's own time, the markers in callgrind's output, and memchr as a limit. */
#define _POSIX_C_SOURCE 200809L

#include <stddef.h>
#include <stdint.h>
#include <string.h>
#include <time.h>

#if defined(__has_include)
#if __has_include(<valgrind/callgrind.h>)
#include <valgrind/callgrind.h>
#define HAS_CALLGRIND 1
#endif
#endif

uint64_t cpu_nanoseconds(void)
{
    struct timespec now;
    clock_gettime(CLOCK_THREAD_CPUTIME_ID, &now);
    return (uint64_t)now.tv_sec * 1000000000u + (uint64_t)now.tv_nsec;
}

/* Under callgrind: writes what was counted since the last mark under this name, and counts from 0 again. */
int mark_counts(const char *name)
{
#ifdef HAS_CALLGRIND
    CALLGRIND_DUMP_STATS_AT(name);
    return 1;
#else
    (void)name;
    return 0;
#endif
}

/* How often the byte is there, by libc's memchr from one to the next. */
size_t count_by_memchr(uint8_t byte, const uint8_t *bytes, size_t count)
{
    size_t found = 0;
    const uint8_t *end = bytes + count;
    while (bytes < end && (bytes = memchr(bytes, byte, (size_t)(end - bytes)))) {
        found++;
        bytes++;
    }
    return found;
}
