/* A stack begins as zeros in each task, whatever the task before it left there. */
#include "task.h"
// image: task start
// image: window seen
// expect: end normal
// expect: words 0 0

uint32_t seen[2];
TASK(start, uint32_t place)
{
    volatile uint32_t *stack = (volatile uint32_t *)0x20000000;
    seen[place] = stack[0] | stack[5];
    stack[0] = stack[5] = 0xFFFFFFFF;
    if (place == 0)
        enqueue(start, 1, 1);
}
