/* As much of <time.h> as host/ and tests/ use, by the numbers of Linux on x86-64: see stdio.h. */
#ifndef BERXUNDAR_ELSEWHERE_TIME_H
#define BERXUNDAR_ELSEWHERE_TIME_H

typedef long clock_t;
#define CLOCKS_PER_SEC ((clock_t)1000000)
clock_t clock(void);

#endif
