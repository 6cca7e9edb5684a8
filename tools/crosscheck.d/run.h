/* The table of cases, and what the two platforms, Linux and DPMI, give to the loop over them. */

typedef unsigned char u8;
typedef unsigned short u16;
typedef unsigned int u32;

struct state {
    u32 edi, esi, ebp, esp, ebx, edx, ecx, eax, eip, eflags;
    u16 cs, ss, ds, es, fs, gs;
};

/* Where the base of a descriptor counts from: the beginning of the data or of the code, or 2 KB below a page that can't be written. */
enum place { IN_DATA, IN_CODE, BEFORE_READ_ONLY };

#define BEFORE_READ_ONLY_SIZE 0x800

struct shape {
    u32 base, limit;
    u8 access, flags, place, unused;
};

/* Doublewords of the data that are compared after each case. */
struct window {
    u32 at, count;
};

/* Bytes that are written to the data before a case. */
struct poke {
    u32 at;
    u8 count, bytes[15];
};

struct test {
    struct state state;
    u8 code[20];
    struct poke pokes[2];
};

struct table {
    u32 first_selector, shapes, windows, tests;
    struct shape shape[];
};

/* What a case left: the vector and the error code of the exception that ended it, and the bytes of the windows that it changed. */
struct left {
    struct state state;
    u32 vector, error, changed, first_changed, sum;
    u8 bytes[12];
};

extern struct table table;

/* run.c: called by a platform at each exception, with the state that it interrupts, which it replaces */
void trapped(struct state *now, u32 vector, u32 error);

/* the platform: `size` bytes of whole pages, after which there is no page */
u8 *make_data(u32 size);
u8 *read_only_page(void);
void make_descriptors(const struct table *t, const u8 *code, u32 code_size, const u8 *data);
void put(const void *bytes, u32 count);
