/* The first and the last word of the stack can be stored to. */
#include "task.h"
// image: task start args 1 2
// image: window seen
// expect: end normal
// expect: words 1 2

uint32_t seen[2];
TASK(start, uint32_t one, uint32_t two)
{
    volatile uint32_t *stack = (volatile uint32_t *)0x20000000;
    /* The frames of the task are above the middle, and its own words are not to be lost. */
    uint32_t last = stack[255];
    stack[0] = one;
    stack[255] = two;
    uint32_t first = stack[0], second = stack[255];
    stack[255] = last;
    seen[0] = first, seen[1] = second;
}
