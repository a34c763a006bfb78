/* The kit has the C library for x86-64 and not its headers: what the example in C uses of this one. */
#ifndef STDIO_H
#define STDIO_H

#include <stddef.h>

typedef struct file FILE;
extern FILE *stdout, *stderr;
FILE *fopen(const char *, const char *);
size_t fread(void *, size_t, size_t, FILE *);
int fclose(FILE *);
int fflush(FILE *);
int ferror(FILE *);
void perror(const char *);
int fprintf(FILE *, const char *, ...);
int printf(const char *, ...);

#endif
