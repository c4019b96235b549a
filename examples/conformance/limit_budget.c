/* A task of nearly 65,536 instructions ends. */
#include "task.h"
// image: task start
// expect: end normal
// expect: output a

TASK(start)
{
    uint32_t left = 32700;
    __asm__ volatile("1: addi %0, %0, -1\n bnez %0, 1b" : "+r"(left));
    emit('a');
}
