/* Linux: descriptors by modify_ldt, exceptions as signals, whose frame is the state. */
#include <asm/ldt.h>
#include <asm/sigcontext.h>
#include <asm/unistd.h>
#include <linux/mman.h>
#include "run.h"

#define SIGNAL_STACK 0x8000
#define PAGE 4096u
#define SA_SIGINFO 4
#define SA_ONSTACK 0x08000000
#define SA_RESTORER 0x04000000

struct frame {
    u32 flags, link, stack[3];
    struct sigcontext context;
};

static u8 signal_stack[SIGNAL_STACK];

static int call(int number, u32 a, u32 b, u32 c, u32 d)
{
    int result;
    __asm__ volatile("int $0x80" : "=a"(result) : "0"(number), "b"(a), "c"(b), "d"(c), "S"(d) : "memory");
    return result;
}

void leave(int status)
{
    call(__NR_exit, status, 0, 0, 0);
}

void put(const void *bytes, u32 count)
{
    for (u32 done = 0; done < count;) {
        int n = call(__NR_write, 1, (u32)bytes + done, count - done, 0);
        if (n <= 0)
            leave(2);
        done += n;
    }
}

static u8 *map(u32 size)
{
    const u32 words[] = {0, size, PROT_READ | PROT_WRITE, MAP_PRIVATE | MAP_ANONYMOUS, (u32)-1, 0};
    return (u8 *)call(__NR_mmap, (u32)words, 0, 0, 0);
}

u8 *make_data(u32 size)
{
    u8 *data = map(size + PAGE);
    if (call(__NR_mprotect, (u32)data + size, PAGE, PROT_NONE, 0))
        leave(4);
    return data;
}

/* A page that can't be written, with F4h in each byte, after one that can. */
u8 *read_only_page(void)
{
    static u8 *page;
    if (page)
        return page;
    page = map(2 * PAGE) + PAGE;
    for (u32 i = 0; i < PAGE; i++)
        page[i] = 0xF4;
    if (call(__NR_mprotect, (u32)page, PAGE, PROT_READ, 0))
        leave(4);
    return page;
}

void make_descriptors(const struct table *t, const u8 *code, u32 code_size, const u8 *data)
{
    u32 page = (u32)code & ~(PAGE - 1);
    if (call(__NR_mprotect, page, (u32)code + code_size - page, PROT_READ | PROT_WRITE | PROT_EXEC, 0))
        leave(4);
    const u8 *places[] = {data, code, read_only_page() - BEFORE_READ_ONLY_SIZE};
    for (u32 i = 0; i < t->shapes; i++) {
        const struct shape *s = t->shape + i;
        struct user_desc d = {0};
        d.entry_number = (t->first_selector >> 3) + i;
        d.base_addr = (u32)places[s->place] + s->base;
        d.limit = s->limit;
        d.seg_32bit = s->flags >> 6;
        d.contents = s->access >> 2;
        d.read_exec_only = s->place == IN_CODE ? 0 : !(s->access & 2);
        d.limit_in_pages = s->flags >> 7;
        d.seg_not_present = !(s->access & 0x80);
        if (call(__NR_modify_ldt, 0x11, (u32)&d, sizeof d, 0))
            leave(3);
    }
}

static void on_signal(int number, void *information, struct frame *frame)
{
    struct sigcontext *c = &frame->context;
    struct state s = {c->edi, c->esi, c->ebp, c->esp, c->ebx, c->edx, c->ecx, c->eax, c->eip, c->eflags,
                      c->cs, c->ss, c->ds, c->es, c->fs, c->gs};
    /* A case may leave NT, with which IRET is a return from a task, or ID, which an 80386 doesn't have; a signal's return keeps both. */
    __asm__ volatile("pushfl; andl $~0x204000, (%%esp); popfl" ::: "cc", "memory");
    trapped(&s, c->trapno, c->err);
    c->edi = s.edi, c->esi = s.esi, c->ebp = s.ebp, c->esp = s.esp;
    c->ebx = s.ebx, c->edx = s.edx, c->ecx = s.ecx, c->eax = s.eax;
    c->eip = s.eip, c->eflags = s.eflags;
    c->cs = s.cs, c->ss = s.ss, c->ds = s.ds, c->es = s.es, c->fs = s.fs, c->gs = s.gs;
}

void back_from_signal(void);
__asm__("back_from_signal: movl $173, %eax; int $0x80"); /* rt_sigreturn */

int main(void);

void _start(void)
{
    static const int signals[] = {4, 5, 7, 8, 11}; /* SIGILL, SIGTRAP, SIGBUS, SIGFPE, SIGSEGV */
    u32 stack[3] = {(u32)signal_stack, 0, sizeof signal_stack};
    u32 action[5] = {(u32)on_signal, SA_SIGINFO | SA_ONSTACK | SA_RESTORER, (u32)back_from_signal, 0, 0};
    call(__NR_sigaltstack, (u32)stack, 0, 0, 0);
    for (u32 i = 0; i < sizeof signals / sizeof *signals; i++)
        call(__NR_rt_sigaction, signals[i], (u32)action, 0, 8);
    leave(main());
}
