/* One image from address 0, where the core starts; variables too, so that memory is what the image is. */
SECTIONS {
    . = 0;
    .image : { *(.start) *(.text*) *(.rodata*) *(.data*) *(.bss*) *(COMMON) }
    /DISCARD/ : { *(.comment) *(.ARM.*) *(.note*) }
}
