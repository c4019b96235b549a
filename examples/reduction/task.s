# An unordered reduction: eight tasks add their argument to one word of memory. Each runs as if alone, so no addition is
# lost, in whichever order they come.
#
# image: root unordered
# image: window sum 1
# image: task add args 1
# image: task add args 2
# image: task add args 3
# image: task add args 4
# image: task add args 5
# image: task add args 6
# image: task add args 7
# image: task add args 8
    .cfi_sections .debug_frame
    .text
    .cfi_startproc
    .cfi_undefined ra       # nobody calls a task: a backtrace ends there
add:
    la   t0, sum
    lw   t1, 0(t0)
    add  t1, t1, a0
    sw   t1, 0(t0)
    li   a7, 0
    ecall
    .cfi_endproc

    .data
sum:
    .word 0
