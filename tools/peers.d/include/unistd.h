#pragma once
#include <stddef.h>
#define __NR_modify_ldt 123
long syscall(long number, ...);
