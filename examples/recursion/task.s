# The towers of Hanoi. A function that calls itself twice keeps what it needs on the task's own stack, which images of
# version 2 have. The two tasks use the same addresses there, and neither sees the other's bytes.
#
# image: version 2
# image: root ordered
# image: task towers ts 0 args 3
# image: task towers ts 1 args 4
    .cfi_sections .debug_frame
    .text
    .cfi_startproc
    .cfi_undefined ra       # nobody calls a task: a backtrace ends there
towers:                     # a0: how many disks
    li   a1, 'A'
    li   a2, 'B'
    li   a3, 'C'
    jal  ra, move
    li   a7, 5              # call 5 emits a byte
    li   a0, '\n'
    ecall
    li   a7, 0              # call 0 ends the task
    ecall
    .cfi_endproc

move:                       # moves a0 disks from the peg a1 to the peg a2 by the peg a3
    .cfi_startproc
    beqz a0, moved
    addi sp, sp, -20        # x2 is the stack's end at the start
    .cfi_def_cfa_offset 20
    sw   ra, 0(sp)
    .cfi_offset ra, -20
    sw   a0, 4(sp)
    sw   a1, 8(sp)
    sw   a2, 12(sp)
    sw   a3, 16(sp)
    addi a0, a0, -1         # all but the last disk out of the way
    lw   a2, 16(sp)
    lw   a3, 12(sp)
    jal  ra, move
    li   a7, 5              # the last disk
    lw   a0, 8(sp)
    ecall
    lw   a0, 12(sp)
    ecall
    li   a0, ' '
    ecall
    lw   a0, 4(sp)          # and the others onto it
    addi a0, a0, -1
    lw   a1, 16(sp)
    lw   a2, 12(sp)
    lw   a3, 8(sp)
    jal  ra, move
    lw   ra, 0(sp)
    addi sp, sp, 20
    .cfi_restore ra
    .cfi_def_cfa_offset 0
moved:
    ret
    .cfi_endproc
