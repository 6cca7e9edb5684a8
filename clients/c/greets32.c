/* Greets its guests. One of the names is too long for the room that `greet` has for it: docs/DEBUGGING.md finds that out from the fault in
   which the client ends. Flat protected mode of 32 bits. */
#include "dos.h"

static const char *const guests[] = {"Ada", "Edsger", "Rumpelstiltskin the Younger", "Grace", 0};

static __attribute__((noinline)) void copy(char *to, const char *from)
{
    while ((*to++ = *from++))
        ;
}

static __attribute__((noinline)) void greet(const char *guest)
{
    char name[8];
    copy(name, guest);
    put_text("Good evening, ");
    put_text(name);
    put_text("!\r\n");
}

int main(void)
{
    for (const char *const *guest = guests; *guest; guest++)
        greet(*guest);
    return 0;
}
