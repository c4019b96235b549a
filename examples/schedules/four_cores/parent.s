# A task that makes 64 children, at the timestamps 64 down to 1, each of which ends at once.
    .globl parent, child
    .cfi_sections .debug_frame
    .text
    .cfi_startproc
    .cfi_undefined ra       # nobody calls a task: a backtrace ends there
parent:
    li   s1, 64
    la   a0, child
    li   a7, 1
each:
    mv   a1, s1
    ecall
    addi s1, s1, -1
    bnez s1, each
child:                      # the parent ends here too
    li   a7, 0
    ecall
    .cfi_endproc
