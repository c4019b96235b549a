# A reader, at timestamp 2, of a word 16,384 bytes after the one that the writer, at timestamp 1, stores to.
#
# image: root ordered
# image: task reader ts 2
# image: task writer ts 1
    .cfi_sections .debug_frame
    .text
    .cfi_startproc
    .cfi_undefined ra       # nobody calls a task: a backtrace ends there
reader:
    la   t0, far
    lw   t1, 0(t0)
    li   a7, 0
    ecall

writer:
    la   t0, near
    sw   t1, 0(t0)
    li   a7, 0
    ecall
    .cfi_endproc

    .bss
    .balign 4
near:
    .zero 16384
far:
    .zero 4
