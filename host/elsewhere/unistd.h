/* As much of <unistd.h> as host/ and tests/ use: see stdio.h. */
#ifndef BERXUNDAR_ELSEWHERE_UNISTD_H
#define BERXUNDAR_ELSEWHERE_UNISTD_H

int fsync(int file);
int isatty(int file);

#endif
