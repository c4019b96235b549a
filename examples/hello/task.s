# One task that emits a text, byte by byte.
#
# image: root ordered
# image: task main ts 0
    .cfi_sections .debug_frame
    .text
    .cfi_startproc
    .cfi_undefined ra       # nobody calls a task: a backtrace ends there
main:
    la   t0, message        # the next byte of the message
    li   a7, 5              # call 5 emits the low byte of a0
next:
    lbu  a0, 0(t0)
    beqz a0, done
    ecall
    addi t0, t0, 1
    j    next
done:
    li   a7, 0              # call 0 ends the task
    ecall
    .cfi_endproc

    .data
message:
    .asciz "Hello, world\n"
