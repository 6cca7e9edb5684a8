/* The parts of a flat program, in the same order on both systems; what only one of them has lies at the end of each part. */
    *suite*.o(.text* .data_x) *(.text* .data_x) . = ALIGN(16);
    *suite*.o(.rodata*) *(.rodata*) . = ALIGN(16);
    *suite*.o(.data*) *(.data*) . = ALIGN(4);
    __start_initcall = .; KEEP(*(initcall)) __stop_initcall = .;
