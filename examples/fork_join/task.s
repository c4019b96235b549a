# Fork and join by timestamps: four workers at timestamp 1, and after them one task that adds up their results.
#
# image: root ordered
# image: window squares 5
# image: task fork ts 0
    .cfi_sections .debug_frame
    .text
    .cfi_startproc
    .cfi_undefined ra       # nobody calls a task: a backtrace ends there
fork:
    li   t0, 0              # the worker's number
    la   a0, work           # a child's entry
    li   a1, 1              # its timestamp
    li   a7, 1              # call 1 enqueues to the own domain
each:
    mv   a2, t0             # its first argument
    ecall
    addi t0, t0, 1
    li   t1, 4
    bne  t0, t1, each
    la   a0, join
    li   a1, 2
    ecall
    li   a7, 0
    ecall

work:                       # squares[a0] = a0 + 1, squared by adding
    addi t0, a0, 1
    mv   t1, t0             # how often it is still to be added
    li   t2, 0
add:
    add  t2, t2, t0
    addi t1, t1, -1
    bnez t1, add
    slli t0, a0, 2
    la   t1, squares
    add  t1, t1, t0
    sw   t2, 0(t1)
    li   a7, 0
    ecall

join:                       # sum = the four squares together
    la   t0, squares
    lw   t1, 0(t0)
    lw   t2, 4(t0)
    add  t1, t1, t2
    lw   t2, 8(t0)
    add  t1, t1, t2
    lw   t2, 12(t0)
    add  t1, t1, t2
    sw   t1, 16(t0)
    li   a7, 0
    ecall
    .cfi_endproc

    .data
squares:
    .word 0, 0, 0, 0
sum:
    .word 0
