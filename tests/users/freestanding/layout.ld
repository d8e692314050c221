/* The first four megabytes are the machine's memory. It begins with what the processor looks up:
 * the end of the stack, and where it starts and where it goes at a fault. */
SECTIONS {
    .vectors 0 : { LONG(0x400000) LONG(start) LONG(fail) LONG(fail) }
    .program : { *(.text .text.* .rodata .rodata.* .data .data.* .bss .bss.*) }
    /DISCARD/ : { *(.ARM.exidx .ARM.exidx.*) }
}
