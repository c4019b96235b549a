# Exercise 7, say why. A task stores late to a word that others have read, and a store takes four tasks back, each for
# a reason of its own.
#
# image: root ordered
# image: task price ts 1
# image: task total ts 2
# image: task bill ts 3
# image: task stock ts 4
# image: task clock ts 5
    .text
price:                      # stores 7 to its word
    la   t0, price_word
    li   t1, 7
    sw   t1, 0(t0)
    li   a7, 0
    ecall

total:                      # adds 1 to the price, and hands the rest to a child
    la   t0, price_word
    lw   t1, 0(t0)
    addi t1, t1, 1
    la   t0, total_word
    sw   t1, 0(t0)
    la   a0, receipt
    li   a1, 6
    li   a7, 1
    ecall
    li   a7, 0
    ecall

bill:                       # reads the total
    la   t0, total_word
    lw   t1, 0(t0)
    li   a7, 0
    ecall

stock:                      # reads the word beside the price
    la   t0, stock_word
    lw   t1, 0(t0)
    li   a7, 0
    ecall

clock:                      # reads a word that nobody else has
    la   t0, clock_word
    lw   t1, 0(t0)
    li   a7, 0
    ecall

receipt:                    # emits a letter
    li   a0, 82
    li   a7, 5
    ecall
    li   a7, 0
    ecall

    .data
    .balign 64
price_word:
    .word 0
stock_word:
    .word 40
    .balign 64
total_word:
    .word 0
    .balign 64
clock_word:
    .word 12
