/* What a system gives to flat.c beside system.h and what crosscheck.d has. */
#define FIRST_SELECTOR 0x23F

struct user_desc;

/* Makes a descriptor of the local table, or changes it. */
void set_descriptor(const struct user_desc *made);

/* Sets what a system wants besides. */
void prepare(void);
