# SQLite's instructions stand behind this, and before sqlite_end (sqlite_end.s), in the order in which the linker is given the files.
        .text
        .globl  sqlite_begin
sqlite_begin:
