/* Timing: the best of many short runs, taken in turn. */
#include <time.h>

static inline double now_ns(void) { struct timespec t; clock_gettime(CLOCK_MONOTONIC, &t); return t.tv_sec * 1e9 + t.tv_nsec; }
#define TIME(best, runs, body) do { \
        double t0 = now_ns(); \
        for (int r_ = 0; r_ < (runs); r_++) { body; } \
        double t_ = (now_ns() - t0) / (runs); \
        if (t_ < best) best = t_; \
    } while (0)
