#ifndef STDLIB_H
#define STDLIB_H

#include <stddef.h>

void *malloc(size_t size);
void free(void *from);
char *getenv(const char *name);
__attribute__((noreturn)) void exit(int status);

#endif
