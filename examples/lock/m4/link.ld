/* Where things lie: the vectors and the code from 0 on, the data from 0x20000000 on, and the stack down from the end of RAM. These are the sizes of qemu's
   mps2-an386; a board gives its own. */
MEMORY {
    FLASH (rx) : ORIGIN = 0x00000000, LENGTH = 4M
    RAM (rwx) : ORIGIN = 0x20000000, LENGTH = 4M
}
ENTRY(reset)
SECTIONS {
    .text : {
        KEEP(*(.vectors))
        *(.text*)
        *(.rodata*)
        . = ALIGN(8);
    } > FLASH
    .ARM.extab : { *(.ARM.extab*) } > FLASH
    .ARM.exidx : { *(.ARM.exidx*) } > FLASH
    .data : {
        data_begins = .;
        *(.data*)
        . = ALIGN(8);
        data_ends = .;
    } > RAM AT > FLASH
    data_in_flash = LOADADDR(.data);
    .bss : {
        bss_begins = .;
        *(.bss*)
        *(COMMON)
        . = ALIGN(8);
        bss_ends = .;
    } > RAM
    /* malloc of newlib takes from here on, where a program calls it */
    end = .;
    stack_top = ORIGIN(RAM) + LENGTH(RAM);
    heap_ends = stack_top - 64K;
}
