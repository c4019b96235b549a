# Exercise 3, make a stall: two tasks in one tile, whose commit queue holds one finished task.
#
# image: root ordered
# image: task stop ts 1
# image: task stop ts 2
    .text
stop:
    li   a7, 0
    ecall
