#pragma once
#define LINUX_VERSION_CODE 0x60000
#define KERNEL_VERSION(a, b, c) ((a) << 16 | (b) << 8 | (c))
