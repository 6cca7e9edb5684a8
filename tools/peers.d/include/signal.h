#pragma once
#define SIGILL 4
#define SIGTRAP 5
#define SIGABRT 6
#define SIGBUS 7
#define SIGFPE 8
#define SIGSEGV 11
#define SA_SIGINFO 4
#define SA_NODEFER 0x40000000
typedef struct { int si_signo, si_errno, si_code; void *si_addr; } siginfo_t;
typedef unsigned long sigset_t;
struct sigaction { void (*sa_sigaction)(int, siginfo_t *, void *); sigset_t sa_mask; int sa_flags; };
#define sa_handler sa_sigaction
#define sigemptyset(set) (*(set) = 0)
int sigaction(int number, const struct sigaction *now, struct sigaction *before);
void (*signal(int number, void (*handler)(int)))(int);
