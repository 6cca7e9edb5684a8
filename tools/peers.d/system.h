/* What a system gives: output, an end, and for flat programs of 32 bits descriptors. */
void put(const void *bytes, unsigned count);
void leave(int status) __attribute__((noreturn));
