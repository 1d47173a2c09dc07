/* The memory of the board mps2-an385 ("Application Note AN385"): 4 MiB at 0 for the program, 4 MiB at 0x20000000 for what is written.
 * The stack lies lowest, so that beyond it there is no memory and a call that takes more faults. Its room is what include/layout.h
 * tells for the greediest call, twice. */
MEMORY
{
    program (rx) : ORIGIN = 0, LENGTH = 4M
    written (rw) : ORIGIN = 0x20000000, LENGTH = 4M
}

SECTIONS
{
    .text : { KEEP(*(.vectors)) *(.text .text.*) *(.rodata .rodata.*) } > program
    .ARM.exidx : { *(.ARM.exidx .ARM.exidx.*) } > program
    .data : { *(.data .data.*) } > written
    ASSERT(SIZEOF(.data) == 0, "nothing on the board copies starting values")
    .stack (NOLOAD) : { stack_low = .; . += 128K; stack_top = .; } > written
    .bss (NOLOAD) : { bss_low = .; *(.bss .bss.* COMMON) . = ALIGN(4); bss_end = .; } > written
}
