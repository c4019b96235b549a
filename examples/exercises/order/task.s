# Exercise 5, order by timestamps: five tasks emit a letter each. In an unordered domain they may come in any order.
#
# image: root unordered
# image: task letter args 77
# image: task letter args 82
# image: task letter args 65
# image: task letter args 87
# image: task letter args 83
    .text
letter:
    li   a7, 5
    ecall
    li   a7, 0
    ecall
