/*
 * What the programs of host/ use of the C library. Where the machine is not x86-64 its own headers are another machine's: host/build
 * compiles with those of this folder, and links the toolchain's C library.
 */
#ifndef BERXUNDAR_ELSEWHERE_STDIO_H
#define BERXUNDAR_ELSEWHERE_STDIO_H

#include <stddef.h>

typedef struct elsewhere_file FILE;
extern FILE *stdin;
extern FILE *stdout;
extern FILE *stderr;
FILE *fopen(const char *path, const char *mode);
int fileno(FILE *file);
size_t fread(void *to, size_t size, size_t count, FILE *file);
size_t fwrite(const void *from, size_t size, size_t count, FILE *file);
int ferror(FILE *file);
int fflush(FILE *file);
int fclose(FILE *file);
int printf(const char *format, ...);
int fprintf(FILE *file, const char *format, ...);
int snprintf(char *to, size_t room, const char *format, ...);
int rename(const char *from, const char *to);
int remove(const char *path);
void perror(const char *what);

#endif
