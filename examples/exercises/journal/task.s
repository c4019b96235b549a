# Exercise 1, predict the journal. A task makes three others: two in its own domain, and one in a subdomain of its own.
#
# image: root ordered
# image: task first ts 0
# image: task letter ts 2 args 83
    .text
first:
    la   a0, letter         # at timestamp 3, with a K
    li   a1, 3
    li   a2, 75
    li   a7, 1              # call 1: for the own domain
    ecall
    li   a1, 1              # at timestamp 1, with an A
    li   a2, 65
    ecall
    li   a0, 1              # call 4: an ordered subdomain
    li   a7, 4
    ecall
    la   a0, letter         # at timestamp 9 of the subdomain, with a T
    li   a1, 9
    li   a2, 84
    li   a7, 2              # call 2: for the subdomain
    ecall
    li   a7, 0
    ecall

letter:                     # emits its argument
    li   a7, 5
    ecall
    li   a7, 0
    ecall
