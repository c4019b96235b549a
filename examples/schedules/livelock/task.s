# `first` makes three tasks in tile 1, the least of them last and one step later than it could. `maker` makes one there
# too, and `child` ends at once.
#
# image: root ordered
# image: task first ts 0
# image: task child ts 2
# image: task maker ts 5
    .text
first:
    li   a7, 1
    la   a0, child
    li   a5, 1              # the hint: tile 1
    li   a1, 3
    ecall
    li   a1, 4
    ecall
    li   a7, 5              # a byte, for a step in which tile 1 dispatches what it has
    li   a0, '!'
    ecall
    li   a7, 1
    la   a0, child
    li   a1, 1
    ecall
    li   a7, 0
    ecall

maker:
    li   a7, 1
    la   a0, child
    li   a5, 1
    li   a1, 6
    ecall
child:                      # the maker ends here too
    li   a7, 0
    ecall
