/* Sorts the words of a text in a block of extended memory, and prints each with how often it comes. Flat protected mode of 32 bits. */
#include "dos.h"

#define ROOM 0x10000

static const char text[] = "a client asks the host and the host asks dos and dos asks the client for a key";

/* The words lie one after another in the block, each ended by a zero byte; the list of them grows down from the block's end. */
static int compare(const char *a, const char *b)
{
    for (; *a && *a == *b; a++, b++)
        ;
    return *a - *b;
}

static char **insert(char **first, char **end, char *word)
{
    char **at = --first;
    for (; at + 1 < end && compare(at[1], word) < 0; at++)
        at[0] = at[1];
    *at = word;
    return first;
}

int main(void)
{
    char *block = (char *)allocate(ROOM);
    if (!block) {
        put_text("no memory\r\n");
        return 1;
    }
    char **end = (char **)(block + ROOM), **first = end, *word = block, *at = block;
    for (const char *c = text;; c++) {
        *at++ = *c == ' ' ? 0 : *c;
        if (*c == ' ' || *c == 0) {
            first = insert(first, end, word);
            word = at;
        }
        if (*c == 0)
            break;
    }
    while (first < end) {
        char **next = first;
        while (next < end && compare(*first, *next) == 0)
            next++;
        put_text(*first);
        put_char(' ');
        put_number(next - first);
        put_text("\r\n");
        first = next;
    }
    return 0;
}
