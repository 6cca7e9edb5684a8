/* DPMI, beside crosscheck.d/on_dpmi.c. */
#include <asm/ldt.h>
#include "../crosscheck.d/run.h"
#include "flat.h"
#include "system.h"

u32 service(u32 ax, u32 bx, u32 cx, u32 dx);

extern u8 breakpoint[], overflow[];

void set_descriptor(const struct user_desc *made)
{
    static u32 has_entry;
    u32 selector = made->entry_number << 3 | 7, is_code = made->contents == MODIFY_LDT_CONTENTS_CODE, ax = 0x000C;
    u32 access = 0x72 | is_code << 3 | made->contents % 2 << 2 | !made->seg_not_present << 7;
    u32 flags = made->seg_32bit << 2 | made->limit_in_pages << 3;
    u32 packed[2] = {made->base_addr << 16 | (made->limit & 0xFFFF),
                     (made->base_addr & 0xFF000000) | flags << 20 | (made->limit & 0xF0000) | access << 8 | (made->base_addr >> 16 & 0xFF)};
    u8 carry;
    if (!(has_entry >> made->entry_number & 1))
        service(0x000D, selector, 0, 0);
    has_entry |= 1u << made->entry_number;
    __asm__ volatile("int $0x31; setc %1" : "+a"(ax), "=qm"(carry) : "b"(selector), "D"(packed) : "cc", "memory");
    if (carry)
        leave(97);
}

/* INT 3 and INTO are software interrupts here, with vectors of their own. */
void prepare(void)
{
    u32 cs;
    __asm__("mov %%cs, %0" : "=r"(cs));
    service(0x0205, 3, cs, (u32)breakpoint);
    service(0x0205, 4, cs, (u32)overflow);
}
