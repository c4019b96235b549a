# Exercise 6, keep each order whole: its three tasks are in a subdomain of its own, which comes right after it.
#
# image: root ordered
# image: task order ts 1 args 1
# image: task order ts 2 args 2
    .text
order:                      # a0: 1 or 2
    mv   s0, a0
    li   a0, 1              # call 4: an ordered subdomain
    li   a7, 4
    ecall
    li   a7, 2              # call 2: for the subdomain
    la   a0, stage
    addi a1, s0, 10         # at timestamp 11 or 12, with a B
    li   a2, 66
    ecall
    addi a1, s0, 20         # at 21 or 22, with a P
    li   a2, 80
    ecall
    addi a1, s0, 30         # at 31 or 32, with an S
    li   a2, 83
    ecall
    li   a7, 0
    ecall

stage:                      # emits its argument
    li   a7, 5
    ecall
    li   a7, 0
    ecall
