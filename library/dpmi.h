/* The proved DPMI host for C: a run of a client, looked at from outside. library/build makes out/libdpmi.so and out/libdpmi.a.

   Each call makes the run anew from its client, and keeps nothing: the same arguments give the same answer. A client is

       file, file_length    the bytes of an MZ program, at most 4,194,304
       keys, keys_length    the keystrokes that it finds, at most 65,536 bytes
       pages                the pages of 4,096 bytes for its memory blocks, 1 to 16,384; 1024 is what `dpmi run` gives
       timer                after how many turns a timer's interrupt comes, up to 1,000,000,000; 0 for no timer

   The watchpoints that it sets act as in `dpmi run`.

   A turn is one step of a run: a client's instruction, or a piece of work by the host. Turns are numbered from 1; the state after turn
   0 is the first one. After the client's end nothing changes any more.

   What no proof can check, and a caller owes: no pointer is null, also beside a length of 0 (DPMI_NOTHING is one); as many elements lie
   there as the length says; no two of the pointers overlap where one of them is written to; malloc, realloc and free are one allocator's;
   no call is made from a signal handler, or in the forked child of a process with threads. Calls in several threads don't meet. */
#ifndef DPMI_H
#define DPMI_H
#include <stddef.h>
#include <stdint.h>

#ifdef __cplusplus
extern "C" {
#endif

/* What the calls return. dpmi_run returns the command's status, so 0 and 1 are both a run. */
enum {
    DPMI_DONE = 0,             /* done; of dpmi_run: the client ended itself */
    DPMI_ENDED_OTHERWISE = 1,  /* of dpmi_run: the run ended otherwise */
    DPMI_REFUSED = 2,          /* the client is refused, or another argument; see below */
    DPMI_NO_ROOM = 4,          /* of dpmi_run: the text doesn't fit */
    DPMI_NO_MEMORY = 5         /* out of memory */
};

/* What is refused: a client whose file or keys are too long, whose pages or timer aren't in their ranges, or whose file is no program that
   can be loaded; and for each call what is said there. Why a client is refused is in the text of dpmi_run with a bound and a trace of 0:
   a line `refused` and the reason, of which docs/CLIENTS.md has a table. Where that call takes the client, another argument was refused. */

/* In place of an array without elements, since no pointer may be null. It is a void pointer, so in C++ it needs a cast. */
#define DPMI_NOTHING ((void *)16)

/* No text has more bytes than this: 1,048,576 from the console, and lines of at most 256 bytes: 10,000 of the trace, and one for each
   descriptor and each memory block. */
#define DPMI_MOST_TEXT 6291456

/* Writes what `dpmi run` writes: the first *written bytes of text, at most text_room. bound is the most turns, up to 1,000,000,000; with a
   bound of 0, which the command refuses, it is the text before the first turn. trace is the most lines of the trace, up to 10,000. A bound
   or trace above that is refused. Where the call is refused, the text is the line of the refusal. With 4 and 5 *written is 0. */
uint8_t dpmi_run(const uint8_t *file, size_t file_length, const uint8_t *keys, size_t keys_length, uint32_t pages, uint32_t timer,
                 uint32_t bound, uint32_t trace, uint8_t *text, size_t text_room, size_t *written);

/* A client's state after some of its turns. */
struct dpmi_state {
    uint32_t eax, ecx, edx, ebx, esp, ebp, esi, edi, eip;
    uint32_t es_base, cs_base, ss_base, ds_base, fs_base, gs_base; /* where the segments begin, as linear addresses */
    uint32_t steps;                                                /* how many turns were made */
    uint32_t console;                                              /* how many bytes the client wrote to the console */
    uint32_t exit_code;                                            /* the error code of the exception that ended the run */
    uint16_t flags, es, cs, ss, ds, fs, gs;                        /* flags: the 16-bit image */
    uint8_t mode;                                                  /* 0 in real mode, 1 in protected mode */
    uint8_t code_bits, stack_bits;                                 /* 16 or 32 */
    uint8_t virtual_interrupts;                                    /* 1 where they are enabled */
    uint8_t depth;                                                 /* how many calls, callbacks and exceptions are open */
    uint8_t trap;                                                  /* 1 where the next turn serves a trap of the host */
    uint8_t exit;                                                  /* how the run ended: one of the numbers below */
    uint8_t exit_number;                                           /* the client's code, or the number of the exception */
};

/* How a run ended, by the words that its report has for it. No state has DPMI_BOUND: how many turns were wanted is no part of it. */
enum {
    DPMI_GOES_ON = 0,
    DPMI_EXITED = 1,
    DPMI_FAULT = 2,
    DPMI_BOUND = 3,
    DPMI_NO_KEYS = 4,
    DPMI_CONSOLE_FULL = 5,
    DPMI_DEEP = 6,
    DPMI_STRAY = 7,
    DPMI_LOST_STRUCTURE = 8,
    DPMI_BAD_FRAME = 9,
    DPMI_BAD_SWITCH = 10
};

/* In place of a byte: the client may read none there. */
#define DPMI_NOT_THERE 0xFFFF

/* The states after turns[0], turns[1], .. in rows; and for each of them what the client sees at each of the linear addresses in places: of
   row i and place k it is memory[i * places_count + k], a byte or DPMI_NOT_THERE.
   Refused, too: turns that go down, a turn above 1,000,000,000, a rows_count other than turns_count, and a memory_count other than
   turns_count * places_count. With 2 and 5 rows and memory are as before. */
uint8_t dpmi_states(const uint8_t *file, size_t file_length, const uint8_t *keys, size_t keys_length, uint32_t pages, uint32_t timer,
                    const uint32_t *turns, size_t turns_count, const uint32_t *places, size_t places_count, struct dpmi_state *rows,
                    size_t rows_count, uint16_t *memory, size_t memory_count);

/* A turn after which a run stops: its number; why, in this order; and the number of the byte or of the place. */
struct dpmi_stop {
    uint32_t turn, reason, which;
};

enum {
    DPMI_CHANGE = 1, /* the turn changed a byte that is watched */
    DPMI_PLACE = 2,  /* the client is at one of the places */
    DPMI_OUTSIDE = 3 /* the client is at an instruction outside the bytes in which it was to stay */
};

/* The stops of the turns from `from` (1 or more) to `to`, in order, as many as there is room for; *made counts them. A turn is a stop
   where CS:EIP's linear address after it is one of places, where it changed the byte at one of the linear addresses in bytes (one that
   appears or goes away changes, too), or where CS:EIP is then outside the stay_size bytes from stay_at on, and at no trap of the host;
   with a stay_size of 0 that isn't looked for. *reached is the last turn that was made: `to`; or the one that filled the room, or the
   client's last one, where that came before; where the client had ended before, or there is no room at all, from - 1.
   Refused, too: a `from` of 0, one above `to`, a `to` above 1,000,000,000, and more than 65,536 places or as many bytes. With 2 and 5
   *made and *reached are 0. The stops after the first *made ones may hold anything. */
uint8_t dpmi_stops(const uint8_t *file, size_t file_length, const uint8_t *keys, size_t keys_length, uint32_t pages, uint32_t timer,
                   uint32_t from, uint32_t to, const uint32_t *places, size_t places_count, const uint32_t *bytes, size_t bytes_count,
                   uint32_t stay_at, uint32_t stay_size, struct dpmi_stop *stops, size_t room, size_t *made, uint32_t *reached);

/* The last of these stops; its turn is 0 where there is none. *reached is the last turn that was made: `to`, or the client's last one where
   that came before; where the client had ended before, from - 1. The same is refused. With 2 and 5 *reached and the stop's turn are 0. */
uint8_t dpmi_last_stop(const uint8_t *file, size_t file_length, const uint8_t *keys, size_t keys_length, uint32_t pages, uint32_t timer,
                       uint32_t from, uint32_t to, const uint32_t *places, size_t places_count, const uint32_t *bytes, size_t bytes_count,
                       uint32_t stay_at, uint32_t stay_size, struct dpmi_stop *stop, uint32_t *reached);

#ifdef __cplusplus
}
#endif
#endif
