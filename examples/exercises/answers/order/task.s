# Exercise 5, ordered: timestamps fix the order.
#
# image: root ordered
# image: task letter ts 5 args 77
# image: task letter ts 4 args 82
# image: task letter ts 3 args 65
# image: task letter ts 2 args 87
# image: task letter ts 1 args 83
    .text
letter:
    li   a7, 5
    ecall
    li   a7, 0
    ecall
