#pragma once
typedef int jmp_buf[6], sigjmp_buf[6];
int setjmp(jmp_buf place) __attribute__((returns_twice));
void longjmp(jmp_buf place, int value) __attribute__((noreturn));
#define sigsetjmp(place, mask) setjmp(place)
#define siglongjmp longjmp
