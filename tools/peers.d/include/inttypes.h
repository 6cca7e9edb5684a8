#pragma once
#include <stdint.h>
#define PRIx64 "llx"
#define PRIu64 "llu"
#define PRId64 "lld"
