#ifndef STDIO_H
#define STDIO_H

#include <stddef.h>

typedef struct _IO_FILE FILE;

extern FILE *stdin;
extern FILE *stdout;
extern FILE *stderr;

size_t fread(void *to, size_t size, size_t count, FILE *file);
size_t fwrite(const void *from, size_t size, size_t count, FILE *file);
int fflush(FILE *file);
int fprintf(FILE *file, const char *format, ...);
int printf(const char *format, ...);
int snprintf(char *restrict to, size_t size, const char *restrict format, ...);
int puts(const char *line);
int rename(const char *from, const char *to);

#endif
