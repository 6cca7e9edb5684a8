/* For flat programs of 32 bits, the same on both systems: exceptions become signals, and descriptors are made by modify_ldt. */
#include <asm/ldt.h>
#include <signal.h>
#include <stdarg.h>
#include <stdlib.h>
#include <string.h>
#include <sys/ucontext.h>
#include <unistd.h>
#include "../crosscheck.d/run.h"
#include "flat.h"
#include "system.h"

#define SIGNALS 32

/* What run.h calls a table: one descriptor, since the systems set their handlers when they make descriptors. */
static const u32 one_descriptor[] = {FIRST_SELECTOR, 1, 0, 0, 0, 0xFFFF, 0xF2};

extern u8 image_start[], image_end[];
int suite_main(int count, char **words);

/* The name of the program and perhaps one word; a suite may have its own. */
__attribute__((weak)) char *suite_words[] = {"suite", NULL};

static struct state caught;
static u32 caught_vector, caught_error;
static u16 own_cs, own_ss;
static u8 reserve[0x2000] __attribute__((aligned(16)));
static void (*handlers[SIGNALS])(int, siginfo_t *, void *);

int sigaction(int number, const struct sigaction *now, struct sigaction *before)
{
    (void)before;
    handlers[number] = now->sa_sigaction;
    return 0;
}

void (*signal(int number, void (*handler)(int)))(int)
{
    handlers[number] = (void (*)(int, siginfo_t *, void *))handler;
    return 0;
}

static int signal_of(u32 vector)
{
    switch (vector) {
    case 0: return SIGFPE;
    case 1: case 3: return SIGTRAP;
    case 6: return SIGILL;
    case 11: case 12: return SIGBUS;
    default: return SIGSEGV;
    }
}

/* Runs in the program, in place of the instruction that was caught. */
static void deliver(void)
{
    struct state *c = &caught;
    int number = signal_of(caught_vector);
    siginfo_t information = {number, 0, 0, 0};
    ucontext_t context = {{{c->gs, c->fs, c->es, c->ds, c->edi, c->esi, c->ebp, c->esp, c->ebx, c->edx, c->ecx, c->eax, caught_vector,
                            caught_error, c->eip, c->cs, c->eflags, c->esp, c->ss}}};
    if (!handlers[number])
        leave(128 + number);
    handlers[number](number, &information, &context);
    leave(98);
}

/* The length of an operand's ModRM byte, with what belongs to it. */
static u32 length_of_operand(const u8 *at)
{
    u32 mode = at[0] >> 6, memory = at[0] & 7, has_index = mode != 3 && memory == 4;
    u32 is_direct = mode == 0 && (memory == 5 || (has_index && (at[1] & 7) == 5));
    return 1 + has_index + (mode == 1 ? 1 : mode == 2 || is_direct ? 4 : 0);
}

/* An instruction of the 80486 or later that an 80386 doesn't have (BSWAP, CMPXCHG, XADD, CMPXCHG8B) is passed over. */
static u32 length_of_newer(const u8 *at)
{
    u32 prefixes = 0;
    while (*at == 0x66 || *at == 0xF0)
        at++, prefixes++;
    if (at[0] != 0x0F)
        return 0;
    if (at[1] >= 0xC8 && at[1] <= 0xCF)
        return prefixes + 2;
    if (at[1] == 0xB0 || at[1] == 0xB1 || at[1] == 0xC0 || at[1] == 0xC1 || at[1] == 0xC7)
        return prefixes + 2 + length_of_operand(at + 2);
    return 0;
}

void trapped(struct state *now, u32 vector, u32 error)
{
    u32 length = vector == 6 && now->cs == own_cs ? length_of_newer((const u8 *)now->eip) : 0;
    if (length) {
        now->eip += length;
        return;
    }
    caught = *now, caught_vector = vector, caught_error = error;
    if (now->ss != own_ss)
        now->esp = (u32)reserve + sizeof reserve;
    now->cs = own_cs;
    now->ss = now->ds = now->es = own_ss;
    now->eip = (u32)deliver;
    now->eflags &= ~0x500u; /* no single steps, and strings upward */
}

/* The program's own software interrupts 3 and 4: interrupts.s has taken what INT pushed. */
void interrupted(u32 vector, u32 eip, u32 flags)
{
    caught.eip = eip, caught.eflags = flags, caught.cs = own_cs;
    caught_vector = vector, caught_error = 0;
    deliver();
}

long syscall(long number, ...)
{
    va_list items;
    va_start(items, number);
    int write = va_arg(items, int) == 1;
    const struct user_desc *made = va_arg(items, const struct user_desc *);
    va_end(items);
    if (number == __NR_modify_ldt && write)
        set_descriptor(made);
    return 0;
}

int main(void)
{
    __asm__("mov %%cs, %0\n mov %%ss, %1" : "=rm"(own_cs), "=rm"(own_ss));
    make_descriptors((const struct table *)one_descriptor, image_start, image_end - image_start, image_start);
    prepare();
    exit(suite_main(suite_words[1] ? 2 : 1, suite_words));
}
