/* DPMI: descriptors by INT 31h functions 0000h, 0007h, 0008h and 0009h, exception handlers by 0203h, output by INT 21h function 02h. */
#include "run.h"

/* The stack as on_dpmi.s leaves it in a handler: what it pushed, and above it the host's frame of an exception of a 32-bit client. */
struct frame {
    u32 gs, fs, es, ds, edi, esi, ebp, unused, ebx, edx, ecx, eax, vector, return_eip, return_cs, error, eip, cs, eflags, esp, ss;
};

struct frame frame;
extern u8 handlers[]; /* 8 bytes for each of the vectors 0 to 1Fh */

void leave(int status)
{
    __asm__ volatile("int $0x21" : : "a"(0x4C00 | status));
    __builtin_unreachable();
}

u32 service(u32 ax, u32 bx, u32 cx, u32 dx)
{
    u8 carry;
    __asm__ volatile("int $0x31; setc %1" : "+a"(ax), "=qm"(carry) : "b"(bx), "c"(cx), "d"(dx) : "cc", "memory");
    if (carry)
        leave(3);
    return ax & 0xFFFF;
}

void put(const void *bytes, u32 count)
{
    for (u32 i = 0; i < count; i++)
        __asm__ volatile("int $0x21" : : "a"(0x0200), "d"(((const u8 *)bytes)[i]) : "cc", "memory");
}

u8 *make_data(u32 size)
{
    u32 ax = 0x0501, high = size >> 16, low = size & 0xFFFF, si, di;
    u8 carry;
    __asm__ volatile("int $0x31; setc %5" : "+a"(ax), "+b"(high), "+c"(low), "=S"(si), "=D"(di), "=qm"(carry) : : "cc", "memory");
    if (carry)
        leave(3);
    return (u8 *)(high << 16 | (low & 0xFFFF));
}

/* From there on the megabyte can't be written, and has F4h in each byte. */
u8 *read_only_page(void)
{
    return (u8 *)0xF0000;
}

static void catch_exceptions(void)
{
    u32 cs;
    __asm__("mov %%cs, %0" : "=r"(cs));
    for (u32 vector = 0; vector < 0x20; vector++)
        service(0x0203, vector, cs, (u32)handlers + 8 * vector);
}

void make_descriptors(const struct table *t, const u8 *code, u32 code_size, const u8 *data)
{
    catch_exceptions();
    if (service(0x0000, 0, t->shapes, 0) != t->first_selector)
        leave(4);
    const u8 *places[] = {data, code, read_only_page() - BEFORE_READ_ONLY_SIZE};
    for (u32 i = 0; i < t->shapes; i++) {
        const struct shape *s = t->shape + i;
        u32 selector = t->first_selector + 8 * i, base = (u32)places[s->place] + s->base;
        service(0x0007, selector, base >> 16, base & 0xFFFF);
        service(0x0008, selector, s->limit >> 16, s->limit & 0xFFFF);
        service(0x0009, selector, s->flags << 8 | s->access, 0);
    }
}

/* Called by on_dpmi.s, on a stack of the client's own. */
void exchange(void)
{
    struct frame *f = &frame;
    struct state s = {f->edi, f->esi, f->ebp, f->esp, f->ebx, f->edx, f->ecx, f->eax, f->eip, f->eflags,
                      f->cs, f->ss, f->ds, f->es, f->fs, f->gs};
    trapped(&s, f->vector, f->error);
    f->edi = s.edi, f->esi = s.esi, f->ebp = s.ebp, f->esp = s.esp;
    f->ebx = s.ebx, f->edx = s.edx, f->ecx = s.ecx, f->eax = s.eax;
    f->eip = s.eip, f->eflags = s.eflags;
    f->cs = s.cs, f->ss = s.ss, f->ds = s.ds, f->es = s.es, f->fs = s.fs, f->gs = s.gs;
}
