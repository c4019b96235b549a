# Shortest paths from one node of a graph, as in examples/c/shortest_paths, by hand. A task visits a node, and its
# timestamp is the length of the way that it came by.
#
# image: root ordered
# image: task visit ts 0 args 0
# image: window distance 8
    .cfi_sections .debug_frame
    .text
    .cfi_startproc
    .cfi_undefined ra       # nobody calls a task: a backtrace ends there
visit:                      # a0: the node, a3: the timestamp
    slli t0, a0, 2
    la   t1, distance
    add  t1, t1, t0
    lw   t2, 0(t1)
    addi t2, t2, 1
    bnez t2, done           # visited before
    sw   a3, 0(t1)
    la   t1, first
    add  t1, t1, t0
    lw   t2, 0(t1)          # the place of its first edge
    lw   t3, 4(t1)          # the place after its last
    bgeu t2, t3, done
    la   t1, edges
    slli t2, t2, 3
    add  t2, t2, t1
    slli t3, t3, 3
    add  t3, t3, t1
    mv   t4, a3
    la   a0, visit
    li   a3, 0
    li   a4, 0
    li   a7, 1              # call 1 enqueues to the own domain
next:
    lw   a2, 0(t2)          # where the edge leads
    lw   a1, 4(t2)
    add  a1, a1, t4         # the length of the way there is the timestamp
    mv   a5, a2             # and the node is the hint
    ecall
    addi t2, t2, 8
    bltu t2, t3, next
done:
    li   a7, 0              # call 0 ends the task
    ecall
    .cfi_endproc

    .section .rodata
first:
    .word 0, 3, 5, 7, 9, 11, 13, 14, 14
edges:                      # where each leads, and its length
    .word 1, 7, 2, 2, 3, 20, 3, 3, 4, 8, 1, 3, 4, 9, 5, 4, 6, 1, 5, 1, 6, 12, 7, 2, 6, 2, 7, 5
    .data
distance:                   # -1: not visited
    .word -1, -1, -1, -1, -1, -1, -1, -1
