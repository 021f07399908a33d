#ifndef ERRNO_H
#define ERRNO_H

#define ENOENT 2
#define EINTR 4
#define EAGAIN 11
#define EWOULDBLOCK EAGAIN
#define ENAMETOOLONG 36
#define ECONNABORTED 103
#define ECONNREFUSED 111

/* Each thread has its own. */
__attribute__((const)) int *__errno_location(void);
#define errno (*__errno_location())

#endif
