#ifndef UNISTD_H
#define UNISTD_H

#include <sys/types.h>

ssize_t read(int file, void *to, size_t size);
ssize_t write(int file, const void *from, size_t size);
int close(int file);
int fsync(int file);
int unlink(const char *path);

#endif
