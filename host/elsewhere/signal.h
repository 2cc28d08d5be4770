/* As much of <signal.h> as host/ and tests/ use, by the numbers of Linux on x86-64: see stdio.h. */
#ifndef BERXUNDAR_ELSEWHERE_SIGNAL_H
#define BERXUNDAR_ELSEWHERE_SIGNAL_H

#define SIGHUP 1
#define SIGINT 2
#define SIGQUIT 3
#define SIGTERM 15
#define SIGXFSZ 25
#define SIG_IGN ((void (*)(int))1)
void (*signal(int number, void (*handler)(int)))(int);

#endif
