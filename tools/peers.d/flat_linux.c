/* Linux, beside crosscheck.d/on_linux.c. */
#include <asm/ldt.h>
#include "flat.h"
#include "system.h"

void set_descriptor(const struct user_desc *made)
{
    int result;
    __asm__ volatile("int $0x80" : "=a"(result) : "0"(123), "b"(1), "c"(made), "d"(sizeof *made) : "memory");
    if (result)
        leave(97);
}

void prepare(void)
{
}
