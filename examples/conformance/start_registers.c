/* At the start all registers are 0 but sp and those of the arguments; the call of the stub sets ra. */
#include "task.h"
// image: task start
// image: window seen
// expect: end normal
// expect: words 0 0x20000400 1

uint32_t seen[3];
/* A task by hand: it adds up all registers that begin as 0, and keeps sp. */
extern task_entry by_hand;
__asm__(".text\n.balign 4\n.globl by_hand\nby_hand:\n"
        " or a0, a0, ra\n or a0, a0, gp\n or a0, a0, tp\n or a0, a0, t0\n or a0, a0, t1\n or a0, a0, t2\n"
        " or a0, a0, s0\n or a0, a0, s1\n or a0, a0, a4\n or a0, a0, a5\n or a0, a0, a6\n or a0, a0, a7\n"
        " or a0, a0, s2\n or a0, a0, s3\n or a0, a0, s4\n or a0, a0, s5\n or a0, a0, s6\n or a0, a0, s7\n"
        " or a0, a0, s8\n or a0, a0, s9\n or a0, a0, s10\n or a0, a0, s11\n or a0, a0, t3\n or a0, a0, t4\n"
        " or a0, a0, t5\n or a0, a0, t6\n la t0, seen\n sw a0, 0(t0)\n sw sp, 4(t0)\n li a7, 0\n ecall\n");
TASK(start)
{
    enqueue(by_hand, 0);
    seen[2] = 1;
}
