# A transaction inside a transaction. Each transfer makes an ordered subdomain with two steps: first the one account is
# debited, then the other credited. The credit has a subdomain of its own, which writes the log. For whoever looks from
# outside, a transfer is one: no task of the root domain comes between its steps.
#
# image: root unordered
# image: window first 3
# image: task transfer args 5
# image: task transfer args 7
    .cfi_sections .debug_frame
    .text
    .cfi_startproc
    .cfi_undefined ra       # nobody calls a task: a backtrace ends there
transfer:
    mv   t0, a0             # the amount
    li   a0, 1              # an ordered subdomain
    li   a7, 4
    ecall
    li   a7, 2              # call 2 enqueues to the subdomain
    la   a0, debit
    li   a1, 1
    mv   a2, t0
    ecall
    la   a0, credit
    li   a1, 2
    ecall
    li   a7, 0
    ecall

debit:
    la   t0, first
    lw   t1, 0(t0)
    sub  t1, t1, a0
    sw   t1, 0(t0)
    li   a7, 0
    ecall

credit:
    la   t0, second
    lw   t1, 0(t0)
    add  t1, t1, a0
    sw   t1, 0(t0)
    li   a0, 0              # an unordered subdomain
    li   a7, 4
    ecall
    la   a0, note
    li   a7, 2
    ecall
    li   a7, 0
    ecall

note:                       # counts the transfers that were logged
    la   t0, logged
    lw   t1, 0(t0)
    addi t1, t1, 1
    sw   t1, 0(t0)
    li   a7, 0
    ecall
    .cfi_endproc

    .data
first:
    .word 100
second:
    .word 100
logged:
    .word 0
