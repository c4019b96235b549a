# A program with a mistake: the second task enqueues a child into its own past.
#
# image: root ordered
# image: task good ts 4
# image: task bad ts 7
    .cfi_sections .debug_frame
    .text
    .cfi_startproc
    .cfi_undefined ra       # nobody calls a task: a backtrace ends there
good:
    li   a0, 'g'
    li   a7, 5
    ecall
    li   a7, 0
    ecall

bad:
    la   a0, good
    addi a1, a3, -1         # one before the task's own timestamp
    li   a7, 1
    ecall                   # trap 10 stands here
    li   a7, 0
    ecall
    .cfi_endproc
