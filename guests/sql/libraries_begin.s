# What has no memory of its own stands behind this: memory.c, the C library and the compiler's.
        .text
        .globl  libraries_begin
libraries_begin:
