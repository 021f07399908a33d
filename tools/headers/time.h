#ifndef TIME_H
#define TIME_H

#define CLOCK_MONOTONIC 1

typedef long time_t;
typedef int clockid_t;

struct timespec {
    time_t tv_sec;
    long tv_nsec;
};

int clock_gettime(clockid_t clock, struct timespec *time);

#endif
