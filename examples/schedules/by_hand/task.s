# The reader, its child and the writer of the schedule `conflict`, with addresses made by lui.
#
# image: root ordered
# image: window first 2
# image: task reader ts 2
# image: task writer ts 1
    .cfi_sections .debug_frame
    .text
    .cfi_startproc
    .cfi_undefined ra       # nobody calls a task: a backtrace ends there
reader:
    lui  t0, %hi(first)     # the low part of this address is 0
    lw   t1, 0(t0)
    addi t1, t1, 1
    sw   t1, 4(t0)
    li   a7, 1
    lui  a0, %hi(child)
    addi a0, a0, %lo(child)
    mv   a1, a3             # the reader's own timestamp
    ecall
child:                      # the reader ends here too
    li   a7, 0
    ecall

writer:
    lui  t0, %hi(first)
    li   t1, 7
    sw   t1, 0(t0)
    li   a7, 0
    ecall
    .cfi_endproc

    .bss
    .balign 4
first:
    .zero 8
