#pragma once
#include <stddef.h>
#define EXIT_SUCCESS 0
#define EXIT_FAILURE 1
#define RAND_MAX 0x7fff
void abort(void) __attribute__((noreturn));
void exit(int status) __attribute__((noreturn));
void _exit(int status) __attribute__((noreturn));
void *malloc(size_t size);
void *calloc(size_t count, size_t size);
void *realloc(void *old, size_t size);
void free(void *block);
int abs(int n);
long labs(long n);
int rand(void);
void srand(unsigned seed);
int atoi(const char *text);
long strtol(const char *text, char **end, int base);
void qsort(void *items, size_t count, size_t size, int (*compare)(const void *, const void *));
