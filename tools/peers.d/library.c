/* The part of a C library that the suites use, over `put` and `leave` of the system below it. */
#include <ctype.h>
#include <errno.h>
#include <setjmp.h>
#include <stdint.h>
#include <stdio.h>
#include <stdlib.h>
#include <string.h>
#include <time.h>
#include "system.h"

#ifndef HEAP
#define HEAP 0x2000
#endif

int errno;

/* ---- memory: blocks of powers of two, each with the number of its size before it; a freed one is kept for the next of its size */

static char heap[HEAP] __attribute__((aligned(16)));
static size_t taken;
static char *freed[32];

static unsigned order_of(size_t size)
{
    unsigned order = 5;
    while (order < 31 && ((size_t)1 << order) - 16 < size)
        order++;
    return order;
}

void *malloc(size_t size)
{
    unsigned order = order_of(size);
    char *block = freed[order];
    if (block) {
        freed[order] = *(char **)block;
        return block;
    }
    if (((size_t)1 << order) > HEAP - taken)
        return NULL;
    block = heap + taken + 16;
    taken += (size_t)1 << order;
    block[-1] = order;
    return block;
}

void free(void *block)
{
    if (!block)
        return;
    char **list = freed + ((char *)block)[-1];
    *(char **)block = *list;
    *list = block;
}

void *calloc(size_t count, size_t size)
{
    void *block = malloc(count * size);
    return block ? memset(block, 0, count * size) : NULL;
}

void *realloc(void *old, size_t size)
{
    if (old && order_of(size) <= ((unsigned char *)old)[-1])
        return old;
    void *block = malloc(size);
    if (block && old) {
        memcpy(block, old, ((size_t)1 << ((unsigned char *)old)[-1]) - 16);
        free(old);
    }
    return block;
}

/* ---- bytes and texts */

void *memcpy(void *to, const void *from, size_t count)
{
    char *t = to;
    for (const char *f = from; count--;)
        *t++ = *f++;
    return to;
}

void *mempcpy(void *to, const void *from, size_t count)
{
    return (char *)memcpy(to, from, count) + count;
}

void *memmove(void *to, const void *from, size_t count)
{
    char *t = to;
    const char *f = from;
    if (t <= f)
        return memcpy(to, from, count);
    while (count--)
        t[count] = f[count];
    return to;
}

void *memset(void *to, int c, size_t count)
{
    for (char *t = to; count--;)
        *t++ = c;
    return to;
}

int memcmp(const void *a, const void *b, size_t count)
{
    const unsigned char *x = a, *y = b;
    for (; count--; x++, y++)
        if (*x != *y)
            return *x - *y;
    return 0;
}

void *memchr(const void *at, int c, size_t count)
{
    for (const unsigned char *x = at; count--; x++)
        if (*x == (unsigned char)c)
            return (void *)x;
    return NULL;
}

size_t strlen(const char *text)
{
    const char *end = text;
    while (*end)
        end++;
    return end - text;
}

char *stpcpy(char *to, const char *from)
{
    while ((*to = *from++))
        to++;
    return to;
}

char *strcpy(char *to, const char *from)
{
    stpcpy(to, from);
    return to;
}

char *strncpy(char *to, const char *from, size_t count)
{
    for (char *t = to; count--; t++)
        if ((*t = *from))
            from++;
    return to;
}

char *strncat(char *to, const char *from, size_t count)
{
    char *end = to + strlen(to);
    for (; count-- && *from; end++)
        *end = *from++;
    *end = 0;
    return to;
}

char *strcat(char *to, const char *from)
{
    strcpy(to + strlen(to), from);
    return to;
}

int strncmp(const char *a, const char *b, size_t count)
{
    for (; count && *a && *a == *b; a++, b++)
        count--;
    return count ? (unsigned char)*a - (unsigned char)*b : 0;
}

int strcmp(const char *a, const char *b)
{
    return strncmp(a, b, SIZE_MAX);
}

char *strchr(const char *text, int c)
{
    return memchr(text, c, strlen(text) + 1);
}

char *strrchr(const char *text, int c)
{
    for (const char *at = text + strlen(text) + 1; at-- > text;)
        if (*at == (char)c)
            return (char *)at;
    return NULL;
}

char *strstr(const char *text, const char *part)
{
    for (size_t length = strlen(part); *text || !length; text++)
        if (!strncmp(text, part, length))
            return (char *)text;
    return NULL;
}

int isdigit(int c) { return c >= '0' && c <= '9'; }
int isupper(int c) { return c >= 'A' && c <= 'Z'; }
int islower(int c) { return c >= 'a' && c <= 'z'; }
int isalpha(int c) { return isupper(c) || islower(c); }
int isspace(int c) { return c == ' ' || (c >= 9 && c <= 13); }
int isprint(int c) { return c >= 32 && c < 127; }
int toupper(int c) { return islower(c) ? c - 32 : c; }
int tolower(int c) { return isupper(c) ? c + 32 : c; }

/* ---- numbers */

int abs(int n) { return n < 0 ? -n : n; }
long labs(long n) { return n < 0 ? -n : n; }

static unsigned seed = 1;

void srand(unsigned number) { seed = number; }
int rand(void) { return (seed = seed * 1103515245 + 12345) >> 16 & RAND_MAX; }

long strtol(const char *text, char **end, int base)
{
    long number = 0;
    int minus = 0;
    while (isspace(*text))
        text++;
    if (*text == '-' || *text == '+')
        minus = *text++ == '-';
    if ((base == 0 || base == 16) && text[0] == '0' && (text[1] | 32) == 'x')
        text += 2, base = 16;
    if (base == 0)
        base = *text == '0' ? 8 : 10;
    for (int digit; (digit = isdigit(*text) ? *text - '0' : isalpha(*text) ? toupper(*text) - 'A' + 10 : base) < base; text++)
        number = number * base + digit;
    if (end)
        *end = (char *)text;
    return minus ? -number : number;
}

int atoi(const char *text) { return strtol(text, NULL, 10); }

void qsort(void *items, size_t count, size_t size, int (*compare)(const void *, const void *))
{
    char *first = items;
    for (size_t i = 1; i < count; i++)
        for (char *at = first + i * size; at > first && compare(at - size, at) > 0; at -= size)
            for (size_t k = 0; k < size; k++) {
                char c = at[k];
                at[k] = at[k - size], at[k - size] = c;
            }
}

/* What gcc calls for numbers of 64 bits. */
uint64_t __udivmoddi4(uint64_t n, uint64_t d, uint64_t *rest)
{
    uint64_t quotient = 0, remainder = 0;
    for (int bit = 63; bit >= 0; bit--) {
        int carry = remainder >> 63;
        remainder = remainder << 1 | (n >> bit & 1);
        if (carry || remainder >= d)
            remainder -= d, quotient |= (uint64_t)1 << bit;
    }
    if (rest)
        *rest = remainder;
    return quotient;
}

uint64_t __udivdi3(uint64_t n, uint64_t d) { return __udivmoddi4(n, d, NULL); }

uint64_t __umoddi3(uint64_t n, uint64_t d)
{
    uint64_t rest;
    __udivmoddi4(n, d, &rest);
    return rest;
}

static uint64_t magnitude(int64_t n) { return n < 0 ? -(uint64_t)n : n; }

int64_t __divdi3(int64_t n, int64_t d)
{
    uint64_t quotient = __udivdi3(magnitude(n), magnitude(d));
    return (n < 0) != (d < 0) ? -quotient : quotient;
}

int64_t __moddi3(int64_t n, int64_t d)
{
    uint64_t rest = __umoddi3(magnitude(n), magnitude(d));
    return n < 0 ? -rest : rest;
}

/* ---- output */

struct file { int unused; } standard;
FILE *stdin = &standard, *stdout = &standard, *stderr = &standard;

static char line[256];
static unsigned filled;

int fflush(FILE *file)
{
    (void)file;
    put(line, filled);
    filled = 0;
    return 0;
}

int putchar(int c)
{
    line[filled++] = c;
    if (c == '\n' || filled == sizeof line)
        fflush(stdout);
    return c;
}

int fputc(int c, FILE *to) { return (void)to, putchar(c); }
int putc(int c, FILE *to) { return (void)to, putchar(c); }

int fputs(const char *text, FILE *to)
{
    (void)to;
    while (*text)
        putchar(*text++);
    return 0;
}

int puts(const char *text)
{
    fputs(text, stdout);
    return putchar('\n');
}

struct text { char *at; size_t room, length; };

static void add(struct text *to, char c)
{
    if (!to->at)
        putchar(c);
    else if (to->length + 1 < to->room)
        to->at[to->length] = c;
    to->length++;
}

static void add_padded(struct text *to, const char *item, int length, int width, int left, char pad)
{
    if (!left && pad == '0' && *item == '-' && length)
        add(to, *item++), length--, width--;
    for (int n = width - length; n > 0 && !left; n--)
        add(to, pad);
    for (int n = 0; n < length; n++)
        add(to, item[n]);
    for (int n = width - length; n > 0 && left; n--)
        add(to, ' ');
}

static int number_text(char *digits, uint64_t number, unsigned base, int big, int minus)
{
    char reversed[24];
    int count = 0, length = 0;
    const char *of = big ? "0123456789ABCDEF" : "0123456789abcdef";
    for (; number >> 32; number /= base)
        reversed[count++] = of[number % base];
    unsigned low = number;
    do
        reversed[count++] = of[low % base];
    while (low /= base);
    if (minus)
        digits[length++] = '-';
    while (count)
        digits[length++] = reversed[--count];
    return length;
}

static void format(struct text *to, const char *form, va_list items)
{
    for (; *form; form++) {
        if (*form != '%') {
            add(to, *form);
            continue;
        }
        int left = 0, alternate = 0, width = 0, longs = 0, most = -1;
        char pad = ' ', digits[32];
        for (form++; strchr("-0#+ ", *form); form++)
            left |= *form == '-', alternate |= *form == '#', pad = *form == '0' ? '0' : pad;
        if (*form == '*')
            width = va_arg(items, int), form++;
        while (isdigit(*form))
            width = width * 10 + *form++ - '0';
        if (*form == '.') {
            most = 0;
            if (*++form == '*')
                most = va_arg(items, int), form++;
            while (isdigit(*form))
                most = most * 10 + *form++ - '0';
        }
        while (strchr("lhzjt", *form))
            longs += *form++ == 'l';
        if (*form == 's') {
            const char *item = va_arg(items, const char *);
            const char *end = most < 0 ? NULL : memchr(item, 0, most);
            add_padded(to, item, end ? end - item : most >= 0 ? most : (int)strlen(item), width, left, ' ');
        } else if (*form == 'c') {
            digits[0] = va_arg(items, int);
            add_padded(to, digits, 1, width, left, ' ');
        } else if (*form == '%') {
            add(to, '%');
        } else {
            int is_signed = *form == 'd' || *form == 'i';
            unsigned base = *form == 'x' || *form == 'X' || *form == 'p' ? 16 : *form == 'o' ? 8 : 10;
            uint64_t number = longs > 1 ? va_arg(items, uint64_t) : is_signed ? (uint64_t)va_arg(items, int) : va_arg(items, unsigned);
            int minus = is_signed && (int64_t)number < 0;
            int length = number_text(digits, minus ? -number : number, base, *form == 'X', minus);
            if ((alternate && number && base == 16) || *form == 'p')
                add(to, '0'), add(to, 'x'), width -= 2;
            add_padded(to, digits, length, most > width ? most : width, left, most >= 0 ? '0' : pad);
        }
    }
}

int vsnprintf(char *to, size_t room, const char *form, va_list items)
{
    char none;
    struct text text = {to ? to : &none, to ? room : 0, 0};
    format(&text, form, items);
    if (room && to)
        to[text.length < room ? text.length : room - 1] = 0;
    return text.length;
}

int vsprintf(char *to, const char *form, va_list items) { return vsnprintf(to, SIZE_MAX, form, items); }

int vfprintf(FILE *to, const char *form, va_list items)
{
    (void)to;
    struct text text = {NULL, 0, 0};
    format(&text, form, items);
    return text.length;
}

int vprintf(const char *form, va_list items) { return vfprintf(stdout, form, items); }

#define WITH_ITEMS(call)          \
    va_list items;                \
    va_start(items, form);        \
    int length = call;            \
    va_end(items);                \
    return length

int printf(const char *form, ...) { WITH_ITEMS(vprintf(form, items)); }
int fprintf(FILE *to, const char *form, ...) { WITH_ITEMS(vfprintf(to, form, items)); }
int sprintf(char *to, const char *form, ...) { WITH_ITEMS(vsprintf(to, form, items)); }
int snprintf(char *to, size_t room, const char *form, ...) { WITH_ITEMS(vsnprintf(to, room, form, items)); }

time_t time(time_t *now)
{
    return now ? *now = 1 : 1;
}

/* ---- the end, and jumps */

void exit(int status)
{
    fflush(stdout);
    leave(status & 0xFF);
}

void _exit(int status) { exit(status); }
void abort(void) { exit(134); }

__asm__(
    ".globl setjmp, longjmp\n"
    "setjmp:  movl 4(%esp), %eax\n"
    "         movl %ebx, (%eax)\n movl %esi, 4(%eax)\n movl %edi, 8(%eax)\n movl %ebp, 12(%eax)\n"
    "         leal 4(%esp), %ecx\n movl %ecx, 16(%eax)\n"
    "         movl (%esp), %ecx\n movl %ecx, 20(%eax)\n"
    "         xorl %eax, %eax\n ret\n"
    "longjmp: movl 4(%esp), %edx\n movl 8(%esp), %eax\n"
    "         testl %eax, %eax\n jnz 1f\n incl %eax\n"
    "1:       movl (%edx), %ebx\n movl 4(%edx), %esi\n movl 8(%edx), %edi\n movl 12(%edx), %ebp\n"
    "         movl 16(%edx), %esp\n jmp *20(%edx)\n");
