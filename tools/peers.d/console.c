/* Output and end by DOS, for clients of 16 bits and of real mode. */
#include "system.h"

void put(const void *bytes, unsigned count)
{
    for (const char *at = bytes; count--; at++)
        __asm__ volatile("int $0x21" : : "a"(0x0200), "d"(*at) : "cc", "memory");
}

void leave(int status)
{
    __asm__ volatile("int $0x21" : : "a"(0x4C00 | status));
    __builtin_unreachable();
}

int suite_main(int count, char **words);
void exit(int status);

int main(void)
{
    exit(suite_main(1, (char *[]){"suite", 0}));
}
