/*
 * RAM begins at 0x80000000. The program headers have no room for the file's own headers, which the linker would put
 * below RAM otherwise.
 *
 * RAM's size is a number of the script's boot line. Tell it here too, where it isn't 65536, and how much of it the stack
 * of main() wants: make LDFLAGS="-Wl,--defsym=ram_size=131072 -Wl,--defsym=stack_size=8192"
 */
OUTPUT_ARCH(riscv)
ENTRY(_start)
PHDRS
{
    code PT_LOAD FLAGS(5);
    data PT_LOAD FLAGS(6);
}
SECTIONS
{
    . = 0x80000000;
    .text : { *(.text.start) *(.text .text.*) } :code
    .rodata : { *(.rodata .rodata.* .srodata .srodata.*) } :code
    .init_array : {
        PROVIDE(__init_array_start = .);
        KEEP(*(SORT_BY_INIT_PRIORITY(.init_array.*))) KEEP(*(.init_array))
        PROVIDE(__init_array_end = .);
    } :code
    . = ALIGN(16);
    .data : { *(.data .data.* .sdata .sdata.*) } :data
    .tdata : { *(.tdata .tdata.*) *(.tbss .tbss.*) } :data
    .bss : { *(.bss .bss.* .sbss .sbss.* COMMON) } :data
    image_end = ALIGN(16);
    .evl.names 0 : { KEEP(*(.evl.names)) } :NONE
    /DISCARD/ : { *(.comment) *(.riscv.attributes) *(.eh_frame) *(.note .note.*) }
}
ram_begin = 0x80000000;
ram_end = ram_begin + (DEFINED(ram_size) ? ram_size : 65536);
ASSERT(image_end + (DEFINED(stack_size) ? stack_size : 4096) <= ram_end,
       "the program and its stack need more RAM: see kit/link.ld")
ASSERT(SIZEOF(.tdata) == 0, "thread-local variables (__thread) aren't here: no loader makes them")

/* malloc() has what is left between the program and the stack of main(), or heap_size bytes of it. */
PROVIDE(heap_begin = image_end);
PROVIDE(heap_end = DEFINED(heap_size) ? image_end + heap_size : ram_end - (DEFINED(stack_size) ? stack_size : 4096));
ASSERT(image_end + (DEFINED(heap_size) ? heap_size : 0) + (DEFINED(stack_size) ? stack_size : 4096) <= ram_end,
       "the heap needs more RAM: see kit/link.ld")
