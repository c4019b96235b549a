# A reader with a child, and a writer. The reader, at timestamp 2, loads the first word, stores it plus 1 to the second,
# and enqueues a child at its own timestamp. The writer, at timestamp 1, is to come first.
#
# image: root ordered
# image: window first 2
# image: task reader ts 2
# image: task writer ts 1
    .cfi_sections .debug_frame
    .text
    .cfi_startproc
    .cfi_undefined ra       # nobody calls a task: a backtrace ends there
reader:
    la   t0, first
    lw   t1, 0(t0)
    addi t1, t1, 1
    sw   t1, 4(t0)
    la   a0, child
    mv   a1, a3             # the reader's own timestamp
    li   a7, 1
    ecall
child:                      # the reader ends here too
    li   a7, 0
    ecall

writer:
    la   t0, first
    li   t1, 7
    sw   t1, 0(t0)
    li   a7, 0
    ecall
    .cfi_endproc

    .bss
    .balign 4
first:
    .zero 8
