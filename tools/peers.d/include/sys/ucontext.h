#pragma once
enum { REG_GS, REG_FS, REG_ES, REG_DS, REG_EDI, REG_ESI, REG_EBP, REG_ESP, REG_EBX, REG_EDX, REG_ECX, REG_EAX, REG_TRAPNO, REG_ERR, REG_EIP,
       REG_CS, REG_EFL, REG_UESP, REG_SS };
#define REG_EAX REG_EAX
typedef struct { struct { int gregs[19]; } uc_mcontext; } ucontext_t;
