/* Makes the calls of dpmi.h for library/test.

       caller run FILE KEYS PAGES TIMER BOUND TRACE ROOM    writes the text of dpmi_run, and ends with its status
       caller search FILE FROM TO PLACE BYTE                the states of both turns, the stops of a place and a byte, and the last of them
       caller layout                                        the size of each structure, and the place of each of its fields

   A KEYS of - is no file. */
#include "dpmi.h"
#include <stdio.h>
#include <stdlib.h>
#include <string.h>

enum { MOST = 8 << 20, ROOM = 100 };

static uint8_t file[MOST], keys[MOST];

static size_t read_file(const char *name, uint8_t *into)
{
    FILE *in = name[0] == '-' && !name[1] ? NULL : fopen(name, "rb");
    size_t length = in ? fread(into, 1, MOST, in) : 0;
    if (in)
        fclose(in);
    return length;
}

static int run(char **words)
{
    unsigned long numbers[5];
    size_t written = 1, file_length = read_file(words[0], file), keys_length = read_file(words[1], keys);
    for (int i = 0; i < 5; i++)
        numbers[i] = strtoul(words[2 + i], NULL, 10);
    uint8_t *text = malloc(numbers[4] + 1);
    if (!text)
        return 98;
    int status = dpmi_run(file, file_length, keys, keys_length, numbers[0], numbers[1], numbers[2], numbers[3], text, numbers[4], &written);
    fwrite(text, 1, written, stdout);
    free(text);
    return status;
}

static void show(const struct dpmi_stop *stop)
{
    printf("%u %u %u\n", stop->turn, stop->reason, stop->which);
}

static int search(char **words)
{
    static struct dpmi_state rows[2];
    static struct dpmi_stop stops[ROOM], last;
    uint32_t numbers[4], reached = 1;
    size_t made = 1, length = read_file(words[0], file);
    for (int i = 0; i < 4; i++)
        numbers[i] = strtoul(words[1 + i], NULL, 10);
    const uint32_t *turns = numbers, *place = numbers + 2, *byte = numbers + 3;
    int status = dpmi_states(file, length, DPMI_NOTHING, 0, 1024, 0, turns, 2, DPMI_NOTHING, 0, rows, 2, DPMI_NOTHING, 0);
    for (int i = 0; i < 2; i++)
        for (size_t k = 0; k < sizeof rows[i]; k++)
            printf("%02x%s", ((uint8_t *)(rows + i))[k], k + 1 == sizeof rows[i] ? "\n" : "");
    status |= dpmi_stops(file, length, DPMI_NOTHING, 0, 1024, 0, turns[0], turns[1], place, 1, byte, 1, 0, 0, stops, ROOM, &made, &reached);
    printf("%zu %u\n", made, reached);
    for (size_t i = 0; i < made; i++)
        show(stops + i);
    status |= dpmi_last_stop(file, length, DPMI_NOTHING, 0, 1024, 0, turns[0], turns[1], place, 1, byte, 1, 0, 0, &last, &reached);
    printf("last %u\n", reached);
    show(&last);
    return status;
}

#define FIELD(type, name) printf(#type " " #name " %zu %zu\n", offsetof(struct type, name), sizeof((struct type *)0)->name)
#define STATE(name) FIELD(dpmi_state, name)
#define STOP(name) FIELD(dpmi_stop, name)

static int layout(void)
{
    printf("dpmi_state %zu\ndpmi_stop %zu\n", sizeof(struct dpmi_state), sizeof(struct dpmi_stop));
    STATE(eax), STATE(ecx), STATE(edx), STATE(ebx), STATE(esp), STATE(ebp), STATE(esi), STATE(edi), STATE(eip);
    STATE(es_base), STATE(cs_base), STATE(ss_base), STATE(ds_base), STATE(fs_base), STATE(gs_base);
    STATE(steps), STATE(console), STATE(exit_code), STATE(flags);
    STATE(es), STATE(cs), STATE(ss), STATE(ds), STATE(fs), STATE(gs);
    STATE(mode), STATE(code_bits), STATE(stack_bits), STATE(virtual_interrupts), STATE(depth), STATE(trap), STATE(exit), STATE(exit_number);
    STOP(turn), STOP(reason), STOP(which);
    return 0;
}

int main(int count, char **words)
{
    if (count == 9 && !strcmp(words[1], "run"))
        return run(words + 2);
    if (count == 7 && !strcmp(words[1], "search"))
        return search(words + 2);
    return count == 2 && !strcmp(words[1], "layout") ? layout() : 99;
}
