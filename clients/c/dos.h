/* Calls of DOS and of the host, for clients of either width. */

static inline void put_char(char c)
{
    __asm__ volatile("int $0x21" : : "a"(0x0200), "d"(c) : "cc", "memory");
}

static void put_text(const char *text)
{
    for (; *text; text++)
        put_char(*text);
}

static void put_number(unsigned n)
{
    if (n >= 10)
        put_number(n / 10);
    put_char('0' + n % 10);
}

/* A block of extended memory: its linear address, or 0. INT 31h function 0501h. */
static inline unsigned allocate(unsigned size)
{
    unsigned high = size >> 16, low = size & 0xFFFF, ax = 0x0501, si, di;
    unsigned char carry;
    __asm__ volatile("int $0x31; setc %5"
                     : "+a"(ax), "+b"(high), "+c"(low), "=S"(si), "=D"(di), "=qm"(carry) : : "cc", "memory");
    return carry ? 0 : (high & 0xFFFF) << 16 | (low & 0xFFFF);
}
