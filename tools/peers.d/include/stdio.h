#pragma once
#include <stdarg.h>
#include <stddef.h>
#define EOF (-1)
#define BUFSIZ 512
typedef struct file FILE;
extern FILE *stdin, *stdout, *stderr;
int printf(const char *form, ...) __attribute__((format(printf, 1, 2)));
int fprintf(FILE *to, const char *form, ...);
int vprintf(const char *form, va_list items);
int vfprintf(FILE *to, const char *form, va_list items);
int sprintf(char *to, const char *form, ...);
int snprintf(char *to, size_t room, const char *form, ...);
int vsprintf(char *to, const char *form, va_list items);
int vsnprintf(char *to, size_t room, const char *form, va_list items);
int putchar(int c);
int puts(const char *text);
int fputs(const char *text, FILE *to);
int fputc(int c, FILE *to);
int putc(int c, FILE *to);
int fflush(FILE *file);
