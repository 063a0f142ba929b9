        .text
        .globl  sqlite_end
sqlite_end:
