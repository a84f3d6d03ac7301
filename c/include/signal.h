#ifndef SIGNAL_H
#define SIGNAL_H

enum { SIGILL = 4, SIGABRT = 6, SIGBUS = 7, SIGFPE = 8, SIGSEGV = 11 };

void (*signal(int number, void (*handler)(int)))(int);

#endif
