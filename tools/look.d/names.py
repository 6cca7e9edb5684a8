"""What the functions of DOS, INT 2Fh and INT 31h do, in a few words."""

DOS = {
    0x01: "reads a key and shows it", 0x02: "writes a character", 0x06: "reads or writes a character", 0x07: "reads a key", 0x08: "reads a key",
    0x09: "writes a text", 0x0A: "reads a line", 0x0B: "asks whether there is a key", 0x25: "sets a vector", 0x30: "asks for the version",
    0x35: "gets a vector", 0x3F: "reads", 0x40: "writes", 0x48: "allocates DOS memory", 0x49: "frees DOS memory", 0x4A: "resizes DOS memory",
    0x4C: "ends the client", 0x62: "asks for the prefix",
}

SERVICES = {
    0x0000: "allocates descriptors", 0x0001: "frees a descriptor", 0x0002: "segment to descriptor", 0x0003: "asks for the increment",
    0x0006: "gets a base", 0x0007: "sets a base", 0x0008: "sets a limit", 0x0009: "sets rights", 0x000A: "makes an alias",
    0x000B: "gets a descriptor", 0x000C: "sets a descriptor", 0x000D: "allocates a certain descriptor", 0x0100: "allocates DOS memory",
    0x0101: "frees DOS memory", 0x0102: "resizes DOS memory", 0x0200: "gets a real vector", 0x0201: "sets a real vector",
    0x0202: "gets an exception's handler", 0x0203: "sets an exception's handler", 0x0204: "gets a vector", 0x0205: "sets a vector",
    0x0300: "calls an interrupt of real mode", 0x0301: "calls real mode", 0x0302: "calls real mode with IRET", 0x0303: "allocates a callback",
    0x0304: "frees a callback", 0x0305: "asks how state is saved", 0x0306: "asks for the raw switches", 0x0400: "asks for the version",
    0x0500: "asks for free memory", 0x0501: "allocates memory", 0x0502: "frees memory", 0x0503: "resizes memory", 0x0600: "locks pages",
    0x0601: "unlocks pages", 0x0602: "marks pages as pageable", 0x0603: "relocks pages", 0x0604: "asks for the page size",
    0x0702: "marks pages as candidates", 0x0703: "discards pages", 0x0900: "disables interrupts", 0x0901: "enables interrupts",
    0x0902: "asks about interrupts", 0x0B00: "sets a watchpoint", 0x0B01: "clears a watchpoint", 0x0B02: "asks for a watchpoint's state",
    0x0B03: "resets a watchpoint",
}

EXCEPTIONS = {
    0x00: "divide error", 0x01: "debug exception", 0x03: "breakpoint", 0x04: "overflow", 0x05: "bounds", 0x06: "invalid opcode",
    0x07: "no coprocessor", 0x0B: "segment not present", 0x0C: "stack fault", 0x0D: "general protection", 0x0E: "page fault",
}
