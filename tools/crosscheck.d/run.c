/* Runs the cases of the table one after another and writes what each left. Every exception leads to `trapped`: the first one, which HLT
   raises here, starts a case, and the next one, which the case raises, ends it. Its code lies among bytes of HLT. */
#include "run.h"

#define HLT 0xF4
#define CODE_SIZE 0x10200
#define DATA_SIZE 0x12000

static u8 code[CODE_SIZE];
static u32 *data, before[DATA_SIZE / 4];
static struct state home, wanted;
static struct left left;
static int is_inside;
static u32 own_esp;

static void copy(void *to, const void *from, u32 count)
{
    for (u32 i = 0; i < count; i++)
        ((volatile u8 *)to)[i] = ((const u8 *)from)[i];
}

void trapped(struct state *now, u32 vector, u32 error)
{
    if (!is_inside) {
        copy(&home, now, sizeof home);
        copy(now, &wanted, sizeof wanted);
    } else {
        copy(&left.state, now, sizeof left.state);
        left.vector = vector;
        left.error = error;
        copy(now, &home, sizeof home);
        now->eip++;
    }
    is_inside = !is_inside;
}

/* What a doubleword of the data is before each case. */
static u32 natural(u32 at)
{
    u32 x = (at + 1) * 2654435761u;
    return x ^ x >> 15;
}

static void note_changed(u32 at)
{
    const u8 *now = (const u8 *)data, *old = (const u8 *)before;
    for (u32 i = at; i < at + 4; i++) {
        if (now[i] == old[i])
            continue;
        if (left.changed++ == 0) {
            left.first_changed = i;
            copy(left.bytes, now + i, i + sizeof left.bytes <= DATA_SIZE ? sizeof left.bytes : DATA_SIZE - i);
        }
        left.sum = (left.sum ^ i ^ (u32)now[i] << 24) * 16777619u;
    }
}

/* Compares the windows with the data before the case, and makes them natural again. */
static void look(const struct window *windows, u32 count)
{
    for (u32 w = 0; w < count; w++)
        for (u32 at = windows[w].at / 4, end = at + windows[w].count; at < end; at++)
            if (data[at] != before[at])
                note_changed(at * 4);
    for (u32 w = 0; w < count; w++)
        for (u32 at = windows[w].at / 4, end = at + windows[w].count; at < end; at++)
            data[at] = before[at] = natural(at);
}

static void run(const struct test *t, const u8 *code_of_case)
{
    u8 *place = code + (code_of_case - code);
    copy(place, t->code, sizeof t->code);
    for (u32 p = 0; p < 2; p++) {
        copy((u8 *)data + t->pokes[p].at, t->pokes[p].bytes, t->pokes[p].count);
        copy((u8 *)before + t->pokes[p].at, t->pokes[p].bytes, t->pokes[p].count);
    }
    for (u32 *at = (u32 *)(read_only_page() - BEFORE_READ_ONLY_SIZE); at < (u32 *)read_only_page(); at++)
        *at = 0;
    copy(&wanted, &t->state, sizeof wanted);
    left.changed = left.first_changed = left.sum = 0;
    for (u32 i = 0; i < sizeof left.bytes; i++)
        left.bytes[i] = 0;
    __asm__ volatile("mov %%esp, %0; hlt; mov %0, %%esp" : "+m"(own_esp) : : "memory"); /* a client of 16 bits loses the high half of ESP */
    for (u32 i = 0; i < sizeof t->code; i++)
        place[i] = HLT;
}

int main(void)
{
    const struct shape *shape = table.shape;
    const struct window *windows = (const struct window *)(shape + table.shapes);
    const struct test *tests = (const struct test *)(windows + table.windows);
    for (u32 i = 0; i < CODE_SIZE; i++)
        code[i] = HLT;
    data = (u32 *)make_data(DATA_SIZE);
    for (u32 at = 0; at < DATA_SIZE / 4; at++)
        data[at] = before[at] = natural(at);
    make_descriptors(&table, code, CODE_SIZE, (const u8 *)data);
    for (u32 n = 0; n < table.tests; n++) {
        const struct shape *own = shape + (tests[n].state.cs - table.first_selector) / 8;
        run(tests + n, code + own->base + tests[n].state.eip);
        look(windows, table.windows);
        put(&left, sizeof left);
    }
    u32 rest = 0; /* of all data, for what cases changed outside the windows */
    for (u32 at = 0; at < DATA_SIZE / 4; at++)
        rest = (rest ^ data[at]) * 16777619u;
    put(&rest, sizeof rest);
    return 0;
}
