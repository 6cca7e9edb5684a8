/* Tests an emulator's step against the proved host's: each turn of a client's run is a test case, a state before it and one after it.

       library/out/example FILE [--wrong]

   The emulator here is a toy that knows a few instructions: MOV of a number, ADD, SUB, CMP and MOV of two registers, INC, DEC, NOP, JMP and
   Jcc. Yours goes in the place of `step`. With --wrong the toy forgets the auxiliary carry. The status is 1 where a turn differs, 2 where
   the client is refused, 3 where its file can't be read. library/build compiles it; by hand it is cc example.c out/libdpmi.a. */
#include "dpmi.h"
#include <stdio.h>
#include <string.h>

enum { TURNS = 10000, PART = 50, LONGEST = 6, PLACES = PART * LONGEST, MOST_FILE = (4 << 20) + 1 };
enum { CARRY = 1, PARITY = 4, AUXILIARY = 16, ZERO = 64, SIGN = 128, OVERFLOW = 2048 };

static uint8_t file[MOST_FILE]; /* one byte more than a client may have, so that a longer one is refused */
static size_t file_length;
static int is_wrong;

/* A general register: the first eight fields of a state are theirs, in the order of their numbers. */
static uint32_t *general(struct dpmi_state *s, unsigned number)
{
    return &s->eax + number;
}

static uint32_t mask_of(unsigned bits)
{
    return bits == 32 ? 0xFFFFFFFF : (1u << bits) - 1;
}

static uint32_t get(struct dpmi_state *s, unsigned number, unsigned bits)
{
    if (bits == 8 && number >= 4)                                  /* AH, CH, DH, BH */
        return *general(s, number - 4) >> 8 & 0xFF;
    return *general(s, number) & mask_of(bits);
}

static void set(struct dpmi_state *s, unsigned number, unsigned bits, uint32_t value)
{
    unsigned shift = bits == 8 && number >= 4 ? 8 : 0;
    uint32_t *at = general(s, shift ? number - 4 : number), mask = mask_of(bits) << shift;
    *at = (*at & ~mask) | (value << shift & mask);
}

/* a + b or a - b, with its flags, but for those that are kept. */
static uint32_t sum(struct dpmi_state *s, uint32_t a, uint32_t b, unsigned bits, int is_minus, uint16_t kept)
{
    uint32_t result = (is_minus ? a - b : a + b) & mask_of(bits), top = 1u << (bits - 1);
    uint32_t overflows = is_minus ? (a ^ b) & (a ^ result) : ~(a ^ b) & (a ^ result);
    uint16_t all = CARRY | PARITY | AUXILIARY | ZERO | SIGN | OVERFLOW, flags = 0;
    flags |= (is_minus ? a < b : result < a) ? CARRY : 0;
    flags |= __builtin_popcount(result & 0xFF) % 2 == 0 ? PARITY : 0;
    flags |= is_wrong ? 0 : (a ^ b ^ result) & AUXILIARY;
    flags |= result == 0 ? ZERO : 0;
    flags |= result & top ? SIGN : 0;
    flags |= overflows & top ? OVERFLOW : 0;
    all &= ~kept;
    s->flags = (s->flags & ~all) | (flags & all);
    return result;
}

static int holds(const struct dpmi_state *s, unsigned condition)
{
    int less = !(s->flags & SIGN) != !(s->flags & OVERFLOW);
    int asked[] = {s->flags & OVERFLOW, s->flags & CARRY, s->flags & ZERO, s->flags & (CARRY | ZERO), s->flags & SIGN, s->flags & PARITY,
                   less, less || s->flags & ZERO};
    return (asked[condition >> 1] != 0) != (condition & 1);
}

/* Carries out the instruction, and returns its length; 0 where the toy doesn't know it. */
static unsigned step(struct dpmi_state *s, const uint8_t *code)
{
    uint8_t op = code[0], kind = op & 0xFC, modrm = code[1];
    unsigned has_bytes = (op & 0xF8) == 0xB0 || ((kind == 0x00 || kind == 0x28 || kind == 0x38 || kind == 0x88) && !(op & 1));
    unsigned bits = has_bytes ? 8 : s->code_bits;
    if (op == 0x90)
        return 1;
    if (op >= 0xB0 && op <= 0xBF) {                                /* MOV of a number */
        uint32_t value = 0;
        memcpy(&value, code + 1, bits / 8);
        set(s, op & 7, bits, value);
        return 1 + bits / 8;
    }
    if (op >= 0x40 && op <= 0x4F) {                                /* INC, DEC */
        set(s, op & 7, bits, sum(s, get(s, op & 7, bits), 1, bits, op >= 0x48, CARRY));
        return 1;
    }
    if ((op >= 0x70 && op <= 0x7F) || op == 0xEB) {                /* Jcc, JMP */
        if (op == 0xEB || holds(s, op & 15))
            s->eip += (int8_t)code[1];
        return 2;
    }
    if ((kind == 0x00 || kind == 0x28 || kind == 0x38 || kind == 0x88) && modrm >= 0xC0) {
        unsigned to = op & 2 ? modrm >> 3 & 7 : modrm & 7, other = op & 2 ? modrm & 7 : modrm >> 3 & 7;
        uint32_t result = get(s, other, bits);                     /* ADD, SUB, CMP, MOV of two registers */
        if (kind != 0x88)
            result = sum(s, get(s, to, bits), result, bits, kind != 0x00, 0);
        if (kind != 0x38)
            set(s, to, bits, result);
        return 2;
    }
    return 0;
}

static void show(uint32_t turn, const uint8_t *code, const struct dpmi_state rows[2], const struct dpmi_state *here)
{
    static const char *const names[] = {"eax", "ecx", "edx", "ebx", "esp", "ebp", "esi", "edi", "eip"};
    printf("turn %u, %04x:%08x, code", turn, rows[0].cs, rows[0].eip);
    for (int k = 0; k < LONGEST; k++)
        printf(" %02x", code[k]);
    printf(":\n");
    for (int i = 0; i < 9; i++)
        if ((&rows[1].eax)[i] != (&here->eax)[i])
            printf("  %s is %08x, then %08x; here %08x\n", names[i], (&rows[0].eax)[i], (&rows[1].eax)[i], (&here->eax)[i]);
    if (rows[1].flags != here->flags)
        printf("  flags is %08x, then %08x; here %08x\n", rows[0].flags, rows[1].flags, here->flags);
}

/* The states after `first` turns and the next PART ones, and of each the code at its CS:EIP. Returns what the calls return. */
static int fetch(uint32_t first, struct dpmi_state rows[PART + 1], uint8_t codes[PART][LONGEST])
{
    static uint32_t turns[PART + 1], places[PLACES];
    static uint16_t memory[(PART + 1) * PLACES];
    for (int i = 0; i <= PART; i++)
        turns[i] = first + i;
    int status = dpmi_states(file, file_length, DPMI_NOTHING, 0, 1024, 0, turns, PART + 1, places, 0, rows, PART + 1, memory, 0);
    if (status != DPMI_DONE)
        return status;
    for (int k = 0; k < PLACES; k++)
        places[k] = rows[k / LONGEST].cs_base + rows[k / LONGEST].eip + k % LONGEST;
    status = dpmi_states(file, file_length, DPMI_NOTHING, 0, 1024, 0, turns, PART + 1, places, PLACES, rows, PART + 1, memory,
                         (PART + 1) * PLACES);
    for (int k = 0; k < PLACES; k++)
        codes[k / LONGEST][k % LONGEST] = memory[k / LONGEST * PLACES + k];
    return status;
}

int main(int count, char **words)
{
    static struct dpmi_state rows[PART + 1];
    static uint8_t codes[PART][LONGEST];
    unsigned agreed = 0, unknown = 0;
    is_wrong = count == 3 && strcmp(words[2], "--wrong") == 0;
    if (count != 2 + is_wrong)
        return fputs("example FILE [--wrong]\n", stderr), 2;
    FILE *in = fopen(words[1], "rb");
    if (in)
        file_length = fread(file, 1, sizeof file, in);
    if (!in || ferror(in))
        return perror(words[1]), 3;
    for (uint32_t first = 0; first < TURNS; first += PART) {
        int status = fetch(first, rows, codes);
        if (status != DPMI_DONE)
            return fprintf(stderr, "%s: %s\n", words[1], status == DPMI_REFUSED ? "it is refused" : "out of memory"), status;
        for (int i = 0; i < PART && !rows[i].exit; i++) {
            struct dpmi_state here = rows[i];
            if (here.trap || here.depth != rows[i + 1].depth)
                continue;                                          /* the host works, or delivers an exception */
            unsigned size = step(&here, codes[i]);
            here.eip = (here.eip + size) & mask_of(here.code_bits);
            if (size && (memcmp(&here, &rows[i + 1], 9 * sizeof here.eax) || here.flags != rows[i + 1].flags))
                return show(first + i + 1, codes[i], rows + i, &here), 1;
            agreed += size != 0;
            unknown += size == 0;
        }
    }
    printf("%u instructions agree, %u aren't known to the toy\n", agreed, unknown);
    return 0;
}
