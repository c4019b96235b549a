# A pointer that is followed too early. The follower, at timestamp 2, loads a pointer, loads what it points to, and emits
# it. The setter, at timestamp 1, sets the pointer; before that it is 0, where no data is.
#
# image: root ordered
# image: task follower ts 2
# image: task setter ts 1
    .cfi_sections .debug_frame
    .text
    .cfi_startproc
    .cfi_undefined ra       # nobody calls a task: a backtrace ends there
follower:
    la   t0, pointer
    lw   t1, 0(t0)
    lw   a0, 0(t1)          # trap 5 where the pointer is still 0
    li   a7, 5
    ecall
    li   a7, 0
    ecall

setter:
    la   t0, pointer
    la   t1, letter
    sw   t1, 0(t0)
    li   a7, 0
    ecall
    .cfi_endproc

    .data
pointer:
    .word 0
letter:
    .word 'Z'
