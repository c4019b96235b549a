# A task with a child in its subdomain, and so many others that its queue of four is full. The child stores a byte,
# emits one and hands a child to the superdomain, which traps.
#
# image: root ordered
# image: window cell 1
# image: task main ts 1
    .cfi_sections .debug_frame
    .text
    .cfi_startproc
    .cfi_undefined ra       # nobody calls a task: a backtrace ends there
main:
    li   a0, 0              # an unordered subdomain
    li   a7, 4
    ecall
    lui  a0, %hi(inner)
    addi a0, a0, %lo(inner)
    li   a7, 2              # to the subdomain
    ecall
    addi a0, a0, 52         # from inner to later
    li   a1, 5
    li   a7, 1              # to the own domain, at 5, 4 and 3
    ecall
    addi a1, a1, -1
    ecall
    addi a1, a1, -1
    ecall
    li   a7, 0
    ecall

inner:
    lui  t0, %hi(cell)      # the low part of this address is 0
    li   t1, 321            # 256 and 65: the byte is 65
    sb   t1, 1(t0)
    li   a0, 72
    li   a7, 5
    ecall
    lui  a0, %hi(after)
    addi a0, a0, %lo(after)
    li   a1, 2
    li   a7, 3              # to the superdomain
    ecall
    li   a7, 0
    ecall

later:
    li   a7, 0
    ecall

after:
    lbu  t1, 0(zero)        # neither text nor data
    .cfi_endproc

    .data
    .balign 4
cell:
    .word 0x04030201
