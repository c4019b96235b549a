# Exercise 4, repair a false conflict: two tasks store to two words, and a third one emits both. The words are different,
# and yet an act of the script aborts a task.
#
# image: root ordered
# image: task late ts 2
# image: task early ts 1
# image: task show ts 3
    .text
late:
    la   t0, second
    li   t1, 66
    sw   t1, 0(t0)
    li   a7, 0
    ecall

early:
    la   t0, first
    li   t1, 65
    sw   t1, 0(t0)
    li   a7, 0
    ecall

show:
    la   t0, first
    lw   a0, 0(t0)
    li   a7, 5
    ecall
    la   t0, second
    lw   a0, 0(t0)
    ecall
    li   a7, 0
    ecall

    .data
    .balign 64
first:
    .word 0
second:
    .word 0
