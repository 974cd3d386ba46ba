/* The kit has a C library but no headers for it: what the twin, the tests, the benchmarks and the example use of it, for x86-64 Linux. */
#ifndef LIBC_H
#define LIBC_H

#define NULL ((void *)0)

typedef struct _IO_FILE FILE;
extern FILE *stdin, *stdout, *stderr;
int printf(const char *format, ...);
int fprintf(FILE *file, const char *format, ...);
int snprintf(char *to, unsigned long size, const char *format, ...);
FILE *fopen(const char *name, const char *mode);
unsigned long fread(void *to, unsigned long size, unsigned long count, FILE *file);
unsigned long fwrite(const void *from, unsigned long size, unsigned long count, FILE *file);
int fclose(FILE *file);
long read(int file, void *to, unsigned long size);
long write(int file, const void *from, unsigned long size);

void *memchr(const void *in, int byte, unsigned long size);
int memcmp(const void *one, const void *other, unsigned long size);
void *memcpy(void *to, const void *from, unsigned long size);
void *memmove(void *to, const void *from, unsigned long size);
void *memset(void *to, int byte, unsigned long size);
int strcmp(const char *one, const char *other);
unsigned long strtoul(const char *text, char **end, int base);
_Noreturn void exit(int status);

/* memory with its own protection */
#define PROT_NONE 0
#define PROT_READ 1
#define PROT_WRITE 2
#define MAP_PRIVATE 2
#define MAP_ANONYMOUS 32
void *mmap(void *at, unsigned long size, int protection, int flags, int file, long offset);
int mprotect(void *at, unsigned long size, int protection);

/* the clock of the benchmark */
#define CLOCK_MONOTONIC 1
struct timespec {
    long tv_sec;
    long tv_nsec;
};
int clock_gettime(int clock, struct timespec *time);

#endif
