#include <stdlib.h>
#undef assert
#define assert(holds) ((holds) ? (void)0 : abort())
