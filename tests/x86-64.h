/*
 * What the C programs of examples/ use of the C library, as it is on x86-64 Linux. The kit has a C library and a compiler for x86-64 but
 * no headers, and those of a machine with another processor say other sizes and numbers. tests/kit-cc puts this in the place of each
 * header that the programs name; what is not here doesn't compile.
 */
#ifndef X86_64_H
#define X86_64_H

/* stddef.h, stdint.h, inttypes.h */
#define NULL ((void *)0)
typedef __SIZE_TYPE__ size_t;
typedef __UINT8_TYPE__ uint8_t;
typedef __INT64_TYPE__ int64_t;
typedef __UINT64_TYPE__ uint64_t;
#define SIZE_MAX __SIZE_MAX__
#define UINT64_MAX __UINT64_MAX__
#define INT64_MIN (-__INT64_MAX__ - 1)
#define UINT64_C(n) n##UL
#define PRIu64 __UINT64_FMTu__
#define PRId64 __INT64_FMTd__

/* errno.h */
int *__errno_location(void);
#define errno (*__errno_location())
#define ENOENT 2

/* stdio.h */
typedef struct _IO_FILE FILE;
extern FILE *stdout;
extern FILE *stderr;
#define SEEK_END 2
int printf(const char *, ...) __attribute__((format(printf, 1, 2)));
int fprintf(FILE *, const char *, ...) __attribute__((format(printf, 2, 3)));
int snprintf(char *, size_t, const char *, ...) __attribute__((format(printf, 3, 4)));
FILE *fopen(const char *, const char *);
size_t fread(void *, size_t, size_t, FILE *);
int fseek(FILE *, long, int);
long ftell(FILE *);
void rewind(FILE *);
int ferror(FILE *);
int fflush(FILE *);
int fclose(FILE *);

/* stdlib.h, string.h */
void *malloc(size_t);
void *realloc(void *, size_t);
void free(void *);
_Noreturn void exit(int);
void *memset(void *, int, size_t);
void *memcpy(void *, const void *, size_t);
int memcmp(const void *, const void *, size_t);
size_t strlen(const char *);

/* unistd.h */
#define _SC_PAGESIZE 30
long sysconf(int);

/* sys/mman.h */
#define PROT_NONE 0
#define PROT_READ 1
#define PROT_WRITE 2
#define MAP_PRIVATE 2
#define MAP_ANONYMOUS 0x20
#define MAP_FAILED ((void *)-1)
void *mmap(void *, size_t, int, int, int, long);
int mprotect(void *, size_t, int);
int munmap(void *, size_t);

/* sys/stat.h */
struct stat {
    unsigned long before[3];
    unsigned st_mode;
    unsigned owners[3];
    unsigned long after[13];
};
_Static_assert(sizeof(struct stat) == 144, "the C library writes as many bytes");
#define S_ISREG(mode) (((mode) & 0170000) == 0100000)
#define S_ISDIR(mode) (((mode) & 0170000) == 0040000)
int stat(const char *, struct stat *);
int lstat(const char *, struct stat *);

/* pthread.h */
typedef unsigned long pthread_t;
typedef union {
    char bytes[56];
    long aligned;
} pthread_attr_t;
int pthread_attr_init(pthread_attr_t *);
int pthread_attr_destroy(pthread_attr_t *);
int pthread_attr_setstack(pthread_attr_t *, void *, size_t);
int pthread_attr_setstacksize(pthread_attr_t *, size_t);
int pthread_create(pthread_t *, const pthread_attr_t *, void *(*)(void *), void *);
int pthread_join(pthread_t, void **);

#endif
