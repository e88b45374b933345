/* One window from 0: code, constants, data, then what is 0 at first. The data of a thread, as picolibc's errno, has its
   place after the data, since nothing starts a thread. */
ENTRY(_start)
SECTIONS
{
  . = 0;
  .text : { *(.text.start) *(.text .text.*) *(.rodata .rodata.* .srodata .srodata.*) }
  . = ALIGN(16);
  .data : { *(.data .data.*) PROVIDE(__global_pointer$ = . + 0x800); *(.sdata .sdata.*) }
  .tdata : { __tls_base = .; *(.tdata .tdata.*) }
  .tbss : { *(.tbss .tbss.*) }
  . += SIZEOF(.tbss);
  .bss : { *(.sbss .sbss.*) *(.bss .bss.* COMMON) }
  /DISCARD/ : { *(.comment) *(.note*) *(.eh_frame*) *(.init_array*) *(.fini_array*) }
}
