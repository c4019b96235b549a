/* A task of more than 65,536 instructions. */
#include "task.h"
// image: task start
// expect: end trap 17

TASK(start)
{
    uint32_t left = 32768;
    __asm__ volatile("1: addi %0, %0, -1\n bnez %0, 1b" : "+r"(left));
    emit('a');
}
