# Exercise 2, make an abort: three tasks, each of which adds one to the same word.
#
# image: root ordered
# image: window count 1
# image: task add ts 1
# image: task add ts 2
# image: task add ts 3
    .text
add:
    la   t0, count
    lw   t1, 0(t0)
    addi t1, t1, 1
    sw   t1, 0(t0)
    li   a7, 0
    ecall

    .data
    .balign 4
count:
    .word 0
