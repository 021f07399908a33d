#ifndef SIGNAL_H
#define SIGNAL_H

#define SIGPIPE 13
#define SIGSTOP 19

#define SIG_IGN ((void (*)(int))1)

void (*signal(int number, void (*handler)(int)))(int);
int raise(int number);

#endif
