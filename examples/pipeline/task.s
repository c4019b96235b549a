# A pipeline in one ordered domain: three items, each with three stages. Item i enters at timestamp 3 * i, and each
# stage hands it on with the next timestamp, so that at any time all stages may be at work on different items.
#
# image: root ordered
# image: task double ts 0 args 10
# image: task double ts 3 args 20
# image: task double ts 6 args 30
    .cfi_sections .debug_frame
    .text
    .cfi_startproc
    .cfi_undefined ra       # nobody calls a task: a backtrace ends there
double:                     # first stage: twice the item
    add  a2, a0, a0
    la   a0, bump
    addi a1, a3, 1          # a3 is the task's own timestamp
    li   a7, 1
    ecall
    li   a7, 0
    ecall

bump:                       # second stage: one more
    addi a2, a0, 1
    la   a0, show
    addi a1, a3, 1
    li   a7, 1
    ecall
    li   a7, 0
    ecall

show:                       # third stage: emit it
    li   a7, 5
    ecall
    li   a7, 0
    ecall
    .cfi_endproc
