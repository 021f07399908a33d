#ifndef POLL_H
#define POLL_H

#define POLLIN 0x001
#define POLLOUT 0x004

typedef unsigned long nfds_t;

struct pollfd {
    int fd;
    short events;
    short revents;
};

int poll(struct pollfd *files, nfds_t count, int milliseconds);

#endif
