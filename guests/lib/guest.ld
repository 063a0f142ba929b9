/* The layout of a guest: the image at the start of memory, then zeroed memory, and the stack, which grows down from the memory's end.
   The linker is told how many pages of 4096 bytes the machine has: -Wl,--defsym=pages=32. It may be told too
     data         where zeroed memory begins (where it isn't told, right after the image), variables of the section .answer first;
     stack_bytes  how many bytes to leave for the stack at least (512). */
OUTPUT_ARCH(riscv)
ENTRY(start)
PROVIDE(stack_bytes = 512);
MEMORY {
    ram : ORIGIN = 0x80000000, LENGTH = 16384 * 4096
}
SECTIONS {
    .image : {
        KEEP(*(.start))
        *(.text .text.*)
        *(.rodata .rodata.* .srodata .srodata.*)
        *(.data .data.* .sdata .sdata.*)
        . = ALIGN(4);
    } > ram
    .bss DEFINED(data) ? data : . (NOLOAD) : { *(.answer) *(.sbss .sbss.* .bss .bss.* COMMON) } > ram
    end_of_data = .;
    /DISCARD/ : { *(.comment .note .note.* .riscv.attributes .eh_frame) }
}
stack_top = ORIGIN(ram) + pages * 4096;
ASSERT(end_of_data + stack_bytes <= stack_top, "the guest needs more pages (guests/make --pages N), or less for its stack (--stack BYTES)")
