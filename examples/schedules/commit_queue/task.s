# Two tasks that end at once.
#
# image: root ordered
# image: task end ts 1
# image: task end ts 2
    .cfi_sections .debug_frame
    .text
    .cfi_startproc
    .cfi_undefined ra       # nobody calls a task: a backtrace ends there
end:
    li   a7, 0
    ecall
    .cfi_endproc
